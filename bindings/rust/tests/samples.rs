// The repository's sample enclosure, its two damaged copies, and the chain of expanders.
mod common;
use common::*;

fn sample(name: &str) -> Vec<u8> {
    let path = format!("{}/../../samples/{name}", env!("CARGO_MANIFEST_DIR"));
    std::fs::read(&path).unwrap_or_else(|why| panic!("{path}: {why}"))
}

fn count(node: &device_tree::Node) -> (usize, usize) {
    node.children.iter().map(count).fold((1, node.props.len()), |(n, p), (nodes, props)| (n + nodes, p + props))
}

fn depth(node: &device_tree::Node) -> usize {
    1 + node.children.iter().map(depth).max().unwrap_or(0)
}

#[test]
fn enclosure() {
    let dt = loaded(&sample("enclosure.dtb"));
    assert_eq!((dt.version, dt.boot_cpuid_phys), (17, 0));
    assert_eq!(dt.reserved, [(0x80000000, 0x10000), (0x9ff00000, 0x80000), (0, 0)]);
    assert_eq!(count(&dt.root), (52, 280));
    assert_eq!(dt.root.prop_str("serial-number").unwrap(), "ENC-0017");
    assert_eq!(dt.find("/expander@2").unwrap().prop_u64("sas-address").unwrap(), 0x5000c50000170200);
    let bay = dt.find("/expander@2/bay@4").unwrap();
    assert_eq!(bay.prop_u32("slot").unwrap(), 13);
    assert!(bay.has_prop("hot-swap") && bay.prop_raw("hot-swap").unwrap().is_empty());
    assert_eq!(bay.find("sensor@4c").unwrap().prop_raw("calibration").unwrap(), &[0x3f, 0x7d, 0x70, 0xa4, 0, 0, 0, 0]);
    assert!(dt.find("/expander@2/bay").is_none());
}

// Which unit each of the 16 bays counts in.
#[test]
fn units() {
    let dt = loaded(&sample("enclosure.dtb"));
    let mut slots = 0;
    for expander in ["/expander@1", "/expander@2"] {
        for bay in dt.find(expander).unwrap().children.iter().filter(|node| node.name.starts_with("bay@")) {
            slots += 1;
            assert_eq!(bay.prop_u32("slot").unwrap(), slots);
            let unit = bay.children[0].prop_str("unit").unwrap();
            assert_eq!(unit, if slots < 13 { "celsius" } else { "fahrenheit" }, "slot {slots}");
        }
    }
    assert_eq!(slots, 16);
}

// The sensors of the tenth expander, 23 nodes deep, are the only ones that count in Fahrenheit.
#[test]
fn daisy_chain() {
    let dt = loaded(&sample("daisy-chain.dtb"));
    assert_eq!((count(&dt.root), depth(&dt.root)), ((61, 326), 23));
    let mut path = "/sas@8000/expander@1".to_owned();
    for expander in 1..=10 {
        let at = dt.find(&path).unwrap();
        assert_eq!(at.prop_u32("reg").unwrap(), expander);
        for bay in [0, 1] {
            let sensor = at.find(&format!("bay@{bay}/sensor@{:x}", 0x48 + bay)).unwrap();
            assert_eq!(sensor.prop_str("unit").unwrap(), if expander < 10 { "celsius" } else { "fahrenheit" });
        }
        path += &format!("/port@24/expander@{:x}", expander + 1);
    }
    assert!(dt.find(&path).is_none());
}

#[test]
fn damaged() {
    assert_eq!(said(&sample("damaged-shifted.dtb")), "ParseError(4212)");
    assert_eq!(said(&sample("damaged-short.dtb")), "SizeMismatch");
}

// Every first part of the blob, with its own length in the header, and every byte changed: an answer, and no more.
#[test]
fn any_damage_is_answered() {
    let good = sample("enclosure.dtb");
    for len in (0..good.len()).step_by(7) {
        let mut cut = good[..len].to_vec();
        if 8 <= len {
            cut[4..8].copy_from_slice(&(len as u32).to_be_bytes());
        }
        let _ = said(&cut);
    }
    let mut blob = good.clone();
    for at in 0..good.len() {
        blob[at] ^= 1 << (at % 8);
        if let Ok(dt) = device_tree::DeviceTree::load(&blob) {
            let _ = (dt.find("/expander@2/bay@4/sensor@4c").map(|node| node.prop_str("unit").is_ok()), dt.root.has_prop("model"));
        }
        blob[at] = good[at];
    }
}
