// A tree taken apart by its public fields: borrowed, walked, edited, moved.
extern crate device_tree;

use device_tree::{DeviceTree, Node};

fn show(node: &Node, depth: usize) {
    let &Node { ref name, ref props, ref children, .. } = node;
    println!("{:w$}{} {}", "", name, children.len(), w = depth);
    for &(ref key, ref value) in props {
        println!("{:w$}{} = {:?}", "", key, value, w = depth + 2);
    }
    for child in children.iter() {
        show(child, depth + 1);
        assert_eq!(node.find(&child.name).map(|n| &n.name), Some(&child.name));
    }
}

// The paths of all nodes that have a property.
fn having<'a>(node: &'a Node, above: &str, name: &str, to: &mut Vec<(String, &'a Node)>) {
    if node.has_prop(name) {
        to.push((above.to_owned(), node));
    }
    for child in &node.children {
        having(child, &format!("{}/{}", above, child.name), name, to);
    }
}

fn owned(node: Node) -> Vec<String> {
    let mut all = vec![node.name];
    all.extend(node.props.into_iter().map(|(key, _)| key));
    all.extend(node.children.into_iter().flat_map(owned));
    all
}

// Methods of the program's own, whatever the crate calls its private ones.
trait More {
    fn of(&self) -> usize;
    fn child(&self, name: &str) -> Option<&Node>;
    fn below(&self, name: &str) -> usize;
}

impl More for Node {
    fn of(&self) -> usize {
        self.props.len()
    }
    fn child(&self, name: &str) -> Option<&Node> {
        self.children.iter().find(|child| child.name == name)
    }
    fn below(&self, name: &str) -> usize {
        self.child(name).map_or(0, |child| child.children.len())
    }
}

fn main() {
    let b = std::fs::read(std::env::args().nth(1).unwrap()).unwrap();
    let dt = DeviceTree::load(&b).unwrap();
    show(&dt.root, 0);
    println!("{} {} {}", dt.root.of(), dt.root.child("cpus").is_some(), dt.root.below("cpus"));
    let mut compatible = Vec::new();
    having(&dt.root, "", "compatible", &mut compatible);
    for (path, node) in compatible {
        let path = if path.is_empty() { "/".to_owned() } else { path };
        println!("{} {:?} {}", path, node.prop_str("compatible"), dt.find(&path).is_some());
    }
    let thread = std::thread::spawn(move || {
        let DeviceTree { version, boot_cpuid_phys, reserved, mut root } = dt;
        println!("{} {} {:?}", version, boot_cpuid_phys, reserved);
        root.children.sort_by(|a, b| a.name.cmp(&b.name));
        root.children.retain(|child| !child.children.is_empty());
        root.name.push_str("root");
        println!("{:?}", root);
        let last = root.children.pop();
        let again = DeviceTree { version: version, boot_cpuid_phys: 1, reserved: reserved, root: last.unwrap_or(root) };
        println!("{:?} {}", again, again.find("/").map_or(0, |node| node.props.len()));
        owned(again.root)
    });
    println!("{:?}", thread.join().unwrap());
}
