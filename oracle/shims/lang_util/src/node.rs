//! The node: a piece of the tree and where it stood.

use crate::position::NodeSpan;
use std::fmt;
use std::ops::{Deref, DerefMut};

/// What a node may hold.
pub trait NodeContent: Sized {}

/// Upstream: shows a content for debugging. Derived empty here.
pub trait NodeContentDisplay {}

/// Upstream: shows a node for debugging. Imported by 001, called by nobody here.
pub trait NodeDisplay {}

/// A content with its place in the source, if it has one.
#[derive(Clone, Debug)]
pub struct Node<T: NodeContent> {
    /// What the node holds.
    pub content: T,
    /// Where it stood.
    pub span: Option<NodeSpan>,
}

impl<T: NodeContent> From<T> for Node<T> {
    fn from(content: T) -> Self {
        Self { content, span: None }
    }
}

/// As upstream: two nodes are equal when their contents are, wherever they stood.
impl<T: NodeContent + PartialEq> PartialEq for Node<T> {
    fn eq(&self, other: &Self) -> bool {
        self.content == other.content
    }
}

impl<T: NodeContent + Eq> Eq for Node<T> {}

impl<T: NodeContent> Deref for Node<T> {
    type Target = T;

    fn deref(&self) -> &T {
        &self.content
    }
}

impl<T: NodeContent> DerefMut for Node<T> {
    fn deref_mut(&mut self) -> &mut T {
        &mut self.content
    }
}

impl<T: NodeContent + fmt::Display> fmt::Display for Node<T> {
    fn fmt(&self, f: &mut fmt::Formatter<'_>) -> fmt::Result {
        self.content.fmt(f)
    }
}
