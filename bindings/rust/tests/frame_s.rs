// Document 01's cases: frame S, its neighbours, its paths and its property.
mod common;
use common::*;
use device_tree::util::SliceReadError;
use device_tree::{DeviceTreeError, PropError};

#[test]
fn s_loads() {
    let dt = loaded(&s());
    assert_eq!((dt.version, dt.boot_cpuid_phys), (17, 0));
    assert_eq!(dt.reserved, [(0, 0)]);
    assert_eq!(dt.root.name, "");
    assert_eq!(dt.root.props, [("u".to_owned(), vec![0, 0, 0, 42])]);
    assert_eq!(dt.root.children.len(), 1);
    let b = &dt.root.children[0];
    assert_eq!((b.name.as_str(), b.props.len(), b.children.len()), ("b", 0, 0));
}

#[test]
fn headers() {
    assert_eq!(said(&[]), END_OF_INPUT);
    assert_eq!(said(&[0, 1, 2, 3]), "InvalidMagicNumber");
    assert_eq!(said(&bytes(&[0xd00dfeed, 8])), END_OF_INPUT);
    assert_eq!(said(&s()[..101]), "SizeMismatch");
    assert_eq!(said(&with(&[(20, 16)])), "VersionNotSupported");
    for len in 0..102 {
        let due = if len < 8 { END_OF_INPUT } else { "SizeMismatch" };
        assert_eq!(said(&s()[..len]), due, "{len} bytes");
    }
}

// Words that are never read: 24, 32, 36 and what follows the root.
#[test]
fn unread_words() {
    let due = format!("{:?}", loaded(&s()));
    for at in [24, 32, 36, 96] {
        for word in [0, 1, 4, 9, u32::MAX] {
            assert_eq!(format!("{:?}", loaded(&with(&[(at, word)]))), due, "word {word} at {at}");
        }
    }
}

#[test]
fn tokens() {
    assert_eq!(said(&with(&[(80, 4)])), "ParseError(80)");
    assert_eq!(said(&with(&[(68, 5)])), "ParseError(84)");
    assert_eq!(said(&with(&[(88, 9)])), "ParseError(88)");
    // The value would end at 102, which isn't below the length.
    assert_eq!(said(&with(&[(88, 3)])), END_OF_INPUT);
}

#[test]
fn names() {
    let mut blob = s();
    blob[84] = 0xff;
    assert!(matches!(refused(&blob), DeviceTreeError::Utf8Error));
    // A node's name is judged when the node closes.
    blob[88..92].copy_from_slice(&[0, 0, 0, 4]);
    assert!(matches!(refused(&blob), DeviceTreeError::ParseError(88)));
    // A property's name is judged when it is read.
    blob[100] = 0xff;
    assert!(matches!(refused(&blob), DeviceTreeError::Utf8Error));
}

#[test]
fn boot_cpu_and_reservations() {
    let dt = loaded(&with(&[(28, 7), (44, 4096)]));
    assert_eq!(dt.boot_cpuid_phys, 7);
    assert_eq!(dt.reserved, [(4096, 0)]);
    // Two entries, one over the header's end: only a size of 0 ends the list.
    let dt = loaded(&with(&[(16, 24), (24, 1), (28, 2), (32, 3), (36, 4)]));
    assert_eq!(dt.reserved, [(0x1_0000_0002, 0x3_0000_0004), (0, 0)]);
    assert_eq!(said(&with(&[(16, u32::MAX)])), END_OF_INPUT);
}

#[test]
fn paths() {
    let dt = loaded(&s());
    let b = &dt.root.children[0];
    assert!(std::ptr::eq(dt.find("/").unwrap(), &dt.root));
    assert!(std::ptr::eq(dt.find("/b").unwrap(), b));
    assert!(std::ptr::eq(dt.find("/b/").unwrap(), b));
    for path in ["", "b", "//", "/b//", "/B", "/bb", "/b/b", "/é"] {
        assert!(dt.find(path).is_none(), "{path}");
    }
    assert!(std::ptr::eq(dt.root.find("").unwrap(), &dt.root));
    assert!(std::ptr::eq(dt.root.find("b").unwrap(), b));
    assert!(std::ptr::eq(dt.root.find("b/").unwrap(), b));
    assert!(std::ptr::eq(b.find("").unwrap(), b));
    for path in ["/", "/b", "b//"] {
        assert!(dt.root.find(path).is_none(), "{path}");
    }
}

#[test]
fn the_property() {
    let dt = loaded(&s());
    let root = &dt.root;
    assert!(root.has_prop("u"));
    assert!(std::ptr::eq(root.prop_raw("u").unwrap(), &root.props[0].1));
    assert_eq!(root.prop_u32("u").unwrap(), 42);
    assert!(matches!(root.prop_u64("u"), Err(PropError::SliceReadError(SliceReadError::UnexpectedEndOfInput))));
    assert!(matches!(root.prop_str("u"), Err(PropError::Missing0)));
    for (node, name) in [(root, ""), (root, "U"), (root, "uu"), (&root.children[0], "u")] {
        assert!(!node.has_prop(name));
        assert!(node.prop_raw(name).is_none());
        assert!(matches!(node.prop_u32(name), Err(PropError::NotFound)));
        assert!(matches!(node.prop_u64(name), Err(PropError::NotFound)));
        assert!(matches!(node.prop_str(name), Err(PropError::NotFound)));
    }
}

#[test]
fn values() {
    // A property `u` with that value, in a node that ends with the blob's strings behind it.
    let of = |value: &[u8]| {
        let mut structure = bytes(&[1, 0, 3, value.len() as u32, 0]);
        structure.extend(value);
        structure.resize(structure.len().next_multiple_of(4), 0xee);
        structure.extend(bytes(&[2, 9]));
        loaded(&blob(&structure, b"u\0"))
    };
    let dt = of(b"");
    assert!(dt.root.has_prop("u") && dt.root.prop_raw("u").unwrap().is_empty());
    assert!(matches!(dt.root.prop_str("u"), Err(PropError::Missing0)));
    assert!(matches!(dt.root.prop_u32("u"), Err(PropError::SliceReadError(_))));
    assert_eq!(of(b"\0").root.prop_str("u").unwrap(), "");
    assert_eq!(of(b"a\0b\0").root.prop_str("u").unwrap(), "a\0b");
    assert_eq!(of("é\0".as_bytes()).root.prop_str("u").unwrap(), "é");
    assert!(matches!(of(b"\xff\0").root.prop_str("u"), Err(PropError::Utf8Error)));
    assert!(matches!(of(b"\xff").root.prop_str("u"), Err(PropError::Missing0)));
    let dt = of(&[1, 2, 3, 4, 5, 6, 7, 8, 9]);
    assert_eq!(dt.root.prop_u32("u").unwrap(), 0x01020304);
    assert_eq!(dt.root.prop_u64("u").unwrap(), 0x0102030405060708);
    assert!(matches!(of(&[1, 2, 3, 4, 5, 6, 7]).root.prop_u64("u"), Err(PropError::SliceReadError(_))));
    assert!(matches!(of(&[1, 2, 3]).root.prop_u32("u"), Err(PropError::SliceReadError(_))));
}

// The first child and the first property of a name count, with no return to a later one.
#[test]
fn twins() {
    let a = u32::from_be_bytes(*b"a\0\0\0");
    let structure = bytes(&[1, 0, 3, 4, 0, 7, 3, 4, 0, 8, 1, a, 2, 1, a, 1, a, 2, 2, 2]);
    let dt = loaded(&blob(&structure, b"u\0"));
    assert_eq!(dt.root.prop_u32("u").unwrap(), 7);
    assert!(std::ptr::eq(dt.root.prop_raw("u").unwrap(), &dt.root.props[0].1));
    assert!(std::ptr::eq(dt.find("/a").unwrap(), &dt.root.children[0]));
    assert!(dt.find("/a/a").is_none());
    assert!(dt.root.children[1].find("a").is_some());
}

// 64 levels load. The token that would open the 65th is a ParseError, and only then does a 1 stand at its position.
#[test]
fn depth() {
    const DEPTH: usize = 64;
    let chain = |depth: usize| blob(&bytes(&[[1, 0].repeat(depth), vec![2; depth]].concat()), &[0, 0]);
    for depth in [DEPTH - 1, DEPTH] {
        let dt = loaded(&chain(depth));
        assert_eq!(std::iter::successors(Some(&dt.root), |node| node.children.first()).count(), depth);
    }
    for depth in [DEPTH + 1, DEPTH + 2, 1000, 100_000] {
        let at = 56 + 8 * DEPTH;
        assert_eq!(said(&chain(depth)), format!("ParseError({at})"));
        assert_eq!(chain(depth)[at..at + 4], [0, 0, 0, 1]);
    }
}

// Errors that a porter would make.
#[test]
fn traps() {
    // A value that ends at the blob's last byte is refused before its name, here not UTF-8, is judged.
    let ends = |len| with(&[(12, 0), (72, 4), (76, 0xff000000), (88, 3), (92, len), (96, 76)]);
    assert_eq!(said(&ends(2)), END_OF_INPUT);
    assert_eq!(said(&ends(1)), "Utf8Error");
    // Positions are aligned from byte 0 of the blob, also in a structure block at 57.
    let structure = [&[0][..], &[0, 0, 0, 1, 0], &[0xee, 0xee], &[0, 0, 0, 2]].concat();
    let mut blob = common::blob(&structure, &[0, 0]);
    blob[8..12].copy_from_slice(&57u32.to_be_bytes());
    assert_eq!(said(&blob), "loaded");
}
