//! Ours, not the original's: the nodes of a tree, for the oracle.

use super::{DataOperations, Entry, KDTree, Node, NodePath};

/// What a node holds beside its data.
pub enum Shown<'a, O: DataOperations> {
    Branch(&'a <O::Entry as Entry>::KeyElem),
    Leaf(&'a [O::Entry]),
}

impl<O: DataOperations> KDTree<O> {
    /// Shows the nodes in preorder, the less side before the other side.
    pub fn show(&mut self, visit: &mut impl FnMut(&O::NodeData, Shown<O>)) {
        if let Some(root) = &mut self.root {
            root.show(visit);
        }
    }
}

impl<O: DataOperations> Node<O> {
    fn show(&mut self, visit: &mut impl FnMut(&O::NodeData, Shown<O>)) {
        match self.path.get_mut() {
            NodePath::Leaf(entries) => visit(&self.node_data, Shown::Leaf(entries)),
            NodePath::Branch(branch) => {
                visit(&self.node_data, Shown::Branch(&branch.split_value));
                branch.less_branch.show(visit);
                branch.greater_or_equal_branch.show(visit);
            }
        }
    }
}
