// Trees whose public fields a program has changed: the lookups answer for the blob as it was loaded, and hand out nothing that
// the program has taken away.
mod common;
use common::*;
use device_tree::DeviceTree;
use std::sync::Arc;

// Nodes `a` with `x` and `y`, and `b` with `x`, each with a property `u`: 1 to 5 in the order of the rows, the root's 0.
fn tree() -> DeviceTree {
    let named = |name: &[u8; 1], number: u32| vec![1, (name[0] as u32) << 24, 3, 4, 0, number];
    let words = [
        vec![1, 0, 3, 4, 0, 0],
        named(b"a", 1),
        named(b"x", 2),
        vec![2],
        named(b"y", 3),
        vec![2, 2],
        named(b"b", 4),
        named(b"x", 5),
        vec![2, 2, 2],
    ];
    loaded(&blob(&bytes(&words.concat()), b"u\0"))
}

fn number(dt: &DeviceTree, path: &str) -> Option<u32> {
    dt.find(path).map(|node| node.prop_u32("u").unwrap())
}

#[test]
fn every_row_is_found() {
    let dt = tree();
    for (row, path) in ["/", "/a", "/a/x", "/a/y", "/b", "/b/x"].iter().enumerate() {
        assert_eq!(number(&dt, path), Some(row as u32), "{path}");
    }
}

#[test]
fn a_node_taken_out() {
    let mut dt = tree();
    let a = dt.root.children.remove(0);
    assert!(dt.find("/a").is_none() && dt.find("/a/x").is_none());
    assert_eq!(number(&dt, "/b/x"), Some(5));
    assert_eq!(a.find("y").unwrap().prop_u32("u").unwrap(), 3);
}

#[test]
fn a_node_as_the_root() {
    let mut dt = tree();
    dt.root = dt.root.children.remove(0);
    assert_eq!(number(&dt, "/"), Some(1));
    assert_eq!(number(&dt, "/y"), Some(3));
    assert!(dt.find("y").is_none() && dt.find("").is_none() && dt.find("/a").is_none());
    let dt = DeviceTree { version: 17, boot_cpuid_phys: 0, reserved: vec![], root: dt.root };
    assert_eq!(number(&dt, "/x"), Some(2));
}

#[test]
fn a_node_of_another_tree() {
    let (mut one, mut other) = (tree(), tree());
    one.root.children[0] = other.root.children.remove(0);
    assert!(one.find("/a").is_none() && one.find("/a/x").is_none());
    assert_eq!(one.root.children[0].find("y").unwrap().prop_u32("u").unwrap(), 3);
    std::mem::swap(&mut one.root, &mut other.root);
    assert_eq!(number(&one, "/b"), Some(4));
}

#[test]
fn another_order_and_none() {
    let mut dt = tree();
    dt.root.children.reverse();
    for (row, path) in ["/", "/a", "/a/x", "/a/y", "/b", "/b/x"].iter().enumerate() {
        assert_eq!(number(&dt, path), Some(row as u32), "{path}");
    }
    dt.root.children.clear();
    assert!(dt.find("/a").is_none());
    assert_eq!(number(&dt, "/"), Some(0));
}

#[test]
fn properties() {
    let mut dt = tree();
    let root = &mut dt.root;
    root.props[0].1 = vec![9; 4];
    assert_eq!(root.prop_raw("u"), Some(&vec![9; 4]));
    assert_eq!(root.prop_u32("u").unwrap(), 0);
    root.props[0].0 = "v".to_owned();
    assert!(root.prop_raw("u").is_none() && root.prop_raw("v").is_none() && !root.has_prop("v"));
    root.props.clear();
    assert!(root.prop_raw("u").is_none() && root.has_prop("u"));
    root.name.push('z');
    assert_eq!(number(&dt, "/b"), Some(4));
}

// Nodes outlive the tree, and go to and are read by other threads.
#[test]
fn threads() {
    let node = tree().root.children.remove(1);
    let shared = Arc::new(node);
    let readers: Vec<_> = (0..4)
        .map(|_| {
            let node = shared.clone();
            std::thread::spawn(move || (0..1000).map(|_| node.find("x").unwrap().prop_u32("u").unwrap()).sum::<u32>())
        })
        .collect();
    readers.into_iter().for_each(|reader| assert_eq!(reader.join().unwrap(), 5000));
}
