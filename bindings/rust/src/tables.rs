//! A loaded blob: a copy of it and the tables that the library wrote. The lookups read these.
use crate::ffi::{self, Answer};
use alloc::boxed::Box;
use alloc::vec;
use alloc::vec::Vec;

// "None" in a table.
const NONE: u32 = u32::MAX;

fn link(to: u32) -> Option<usize> {
    (to != NONE).then_some(to as usize)
}

pub(crate) struct Tables {
    blob: Box<[u8]>,
    nodes: Box<[[u32; 7]]>,
    props: Box<[[u32; 4]]>,
    // The place of each node among its parent's children.
    places: Box<[u32]>,
}

/// What a load hands out besides the nodes.
pub(crate) struct Head {
    pub(crate) version: u32,
    pub(crate) boot_cpuid_phys: u32,
    pub(crate) reserved: Vec<(u64, u64)>,
}

impl Tables {
    /// Tables of exactly the room that the blob needs, written by the library; or its refusal, 1 to 7.
    pub(crate) fn load(buffer: &[u8]) -> Result<(Head, Tables), Answer> {
        let measured = ffi::measure(buffer);
        let [0, version, boot, reserved, nodes, props] = measured else { return Err(measured) };
        let mut reserved = vec![[0; 2]; reserved as usize];
        let mut tables = Tables {
            blob: buffer.into(),
            nodes: vec![[0; 7]; nodes as usize].into(),
            props: vec![[0; 4]; props as usize].into(),
            places: Box::default(),
        };
        let loaded = ffi::load(&tables.blob, &mut reserved, &mut tables.nodes, &mut tables.props);
        if loaded != measured {
            return Err(loaded);
        }
        tables.places = tables.placed();
        let reserved = reserved.iter().map(|&[offset, size]| (offset, size)).collect();
        Ok((Head { version: version as u32, boot_cpuid_phys: boot as u32, reserved }, tables))
    }

    fn placed(&self) -> Box<[u32]> {
        let mut places = vec![0; self.nodes.len()];
        for row in 0..self.nodes.len() {
            (0..).zip(self.children(row)).for_each(|(place, child)| places[child] = place);
        }
        places.into()
    }

    fn bytes(&self, offset: u32, len: u32) -> &[u8] {
        &self.blob[offset as usize..][..len as usize]
    }

    /// A part of the blob, by a lookup's answer.
    pub(crate) fn part(&self, a: &Answer) -> &[u8] {
        ffi::part(&self.blob, a)
    }

    /// A node's name.
    pub(crate) fn name(&self, row: usize) -> &[u8] {
        let [offset, len, ..] = self.nodes[row];
        self.bytes(offset, len)
    }

    // A node's property rows.
    fn props_of(&self, row: usize) -> &[[u32; 4]] {
        let [.., first, count] = self.nodes[row];
        &self.props[first as usize..][..count as usize]
    }

    /// A node's properties, name and value.
    pub(crate) fn props(&self, row: usize) -> impl ExactSizeIterator<Item = (&[u8], &[u8])> {
        self.props_of(row).iter().map(|&[name, len, value, size]| (self.bytes(name, len), self.bytes(value, size)))
    }

    /// A node's parent; the root has none.
    pub(crate) fn parent(&self, row: usize) -> Option<usize> {
        link(self.nodes[row][2])
    }

    /// A node's place among its parent's children.
    pub(crate) fn place(&self, row: usize) -> usize {
        self.places[row] as usize
    }

    /// The rows of a node's children.
    pub(crate) fn children(&self, row: usize) -> impl Iterator<Item = usize> + '_ {
        let [_, _, _, first, ..] = self.nodes[row];
        core::iter::successors(link(first), move |&child| link(self.nodes[child][4]))
    }

    /// Which of a node's properties has its value at an offset. Values stand in the blob in the order of their rows.
    pub(crate) fn prop_at(&self, row: usize, offset: u64) -> Option<usize> {
        self.props_of(row).binary_search_by_key(&offset, |&[_, _, value, _]| value as u64).ok()
    }

    pub(crate) fn find(&self, path: &str) -> Answer {
        ffi::find(&self.blob, &self.nodes, path.as_bytes())
    }

    pub(crate) fn find_from(&self, row: usize, path: &str) -> Answer {
        ffi::find_from(&self.blob, &self.nodes, row, path.as_bytes())
    }

    pub(crate) fn has_prop(&self, row: usize, name: &str) -> Answer {
        ffi::has_prop(&self.blob, &self.nodes, &self.props, row, name.as_bytes())
    }

    pub(crate) fn prop_raw(&self, row: usize, name: &str) -> Answer {
        ffi::prop_raw(&self.blob, &self.nodes, &self.props, row, name.as_bytes())
    }

    pub(crate) fn prop_str(&self, row: usize, name: &str) -> Answer {
        ffi::prop_str(&self.blob, &self.nodes, &self.props, row, name.as_bytes())
    }

    pub(crate) fn prop_u32(&self, row: usize, name: &str) -> Answer {
        ffi::prop_u32(&self.blob, &self.nodes, &self.props, row, name.as_bytes())
    }

    pub(crate) fn prop_u64(&self, row: usize, name: &str) -> Answer {
        ffi::prop_u64(&self.blob, &self.nodes, &self.props, row, name.as_bytes())
    }
}
