// Both crates by the same few calls: a node is told by its row, the number of nodes that open before it.
use std::cell::Cell;
use std::collections::HashMap;
use std::panic::{catch_unwind, set_hook, take_hook, AssertUnwindSafe};

// The five property calls' answers; a value with its place among the node's properties.
#[derive(PartialEq, Debug)]
pub struct Asked<'a> {
    pub has: bool,
    pub raw: Option<(usize, &'a [u8])>,
    pub text: Result<&'a str, String>,
    pub u32: Result<u32, String>,
    pub u64: Result<u64, String>,
}

thread_local! {
    static ASKING: Cell<bool> = const { Cell::new(false) };
}

// A panic of one of the crates is an answer; any other is said.
pub fn quiet() {
    let said = take_hook();
    set_hook(Box::new(move |why| {
        if !ASKING.get() {
            said(why)
        }
    }));
}

// What a call gives, its error as it is printed; a panic is an error that nothing else has.
fn given<T, E: std::fmt::Debug>(call: impl FnOnce() -> Result<T, E>) -> Result<T, String> {
    ASKING.set(true);
    let answer = catch_unwind(AssertUnwindSafe(call));
    ASKING.set(false);
    match answer {
        Ok(answer) => answer.map_err(|why| format!("{why:?}")),
        Err(_) => Err("panic".to_owned()),
    }
}

macro_rules! side {
    ($side:ident is $krate:ident) => {
        pub mod $side {
            use super::{given, Asked, HashMap};
            use $krate::util::{self, SliceRead};
            use $krate::{DeviceTree, Node};

            pub fn load(b: &[u8]) -> Result<DeviceTree, String> {
                given(|| DeviceTree::load(b))
            }

            pub struct Tree<'a> {
                pub dt: &'a DeviceTree,
                pub nodes: Vec<&'a Node>,
                rows: HashMap<*const Node, usize>,
            }

            fn list<'a>(node: &'a Node, nodes: &mut Vec<&'a Node>) {
                nodes.push(node);
                node.children.iter().for_each(|child| list(child, nodes));
            }

            impl<'a> Tree<'a> {
                pub fn of(dt: &'a DeviceTree) -> Tree<'a> {
                    let mut nodes = Vec::new();
                    list(&dt.root, &mut nodes);
                    let rows = nodes.iter().enumerate().map(|(row, &node)| (node as *const Node, row)).collect();
                    Tree { dt, nodes, rows }
                }

                fn row(&self, node: Option<&Node>) -> Option<usize> {
                    node.map(|node| self.rows[&(node as *const Node)])
                }

                pub fn find(&self, path: &str) -> Option<usize> {
                    self.row(self.dt.find(path))
                }

                pub fn find_from(&self, row: usize, path: &str) -> Option<usize> {
                    self.row(self.nodes[row].find(path))
                }

                pub fn asked(&self, row: usize, name: &str) -> Asked<'a> {
                    let node = self.nodes[row];
                    let place = |value: &Vec<u8>| node.props.iter().position(|(_, v)| std::ptr::eq(v, value)).unwrap();
                    Asked {
                        has: node.has_prop(name),
                        raw: node.prop_raw(name).map(|value| (place(value), value.as_slice())),
                        text: given(|| node.prop_str(name)),
                        u32: given(|| node.prop_u32(name)),
                        u64: given(|| node.prop_u64(name)),
                    }
                }
            }

            // What a node's fields hold: name, properties, count of children.
            pub fn fields(node: &Node) -> (&str, &[(String, Vec<u8>)], usize) {
                (&node.name, &node.props, node.children.len())
            }

            // All readers at two positions. A part by its offset and length.
            pub fn read(b: &[u8], pos: usize, end: usize) -> [Result<(u64, usize), String>; 5] {
                let place = |part: &[u8]| (part.as_ptr() as u64 - b.as_ptr() as u64, part.len());
                [
                    given(|| b.read_be_u32(pos)).map(|n| (n as u64, 0)),
                    given(|| b.read_be_u64(pos)).map(|n| (n, 0)),
                    given(|| b.read_bstring0(pos).map(place)),
                    given(|| b.subslice(pos, end).map(place)),
                    given(|| Ok::<_, ()>((util::align(pos, end) as u64, 0))),
                ]
            }
        }
    };
}

side!(theirs is original);
side!(mine is ours);
