//! Hash trees: roots, chains and heights. Leaf i is the digest of the text `leaf i`.
use crate::formats::words::{count, hashes_in_hex, in_hex, joined, said};
use crate::lines::{Case, NoAnswer};
use merkle::{Tree, chain, check, height, root};
use sha2::{Digest, Sha256};
use std::alloc::{AllocError, Global};
use tag_hash::tagged;

/// Answers `tree of COUNT PLACE`: the root, and the chain from the place; `tree padded COUNT`: the root of these leaves and
/// an empty one; and `tree height COUNT`.
pub fn answer(alloc: Global, case: &Case<'_>) -> Result<String, NoAnswer> {
    match case.word(1)? {
        "of" => tree(alloc, count(case, 2)?, count(case, 3)?),
        "padded" => padded(alloc, case.word(2)?, count(case, 2)?),
        "height" => Ok(format!(in alloc; "{}", height(count(case, 2)?))?),
        _ => Err(NoAnswer::Question),
    }
}

fn leaves(alloc: Global, count: usize) -> Result<Vec<[u8; 32]>, AllocError> {
    let mut leaves = Vec::with_capacity(alloc, count)?;
    for i in 0..count {
        let text = format!(in alloc; "leaf {i}")?;
        leaves.push(Sha256::digest(text.as_bytes()))?;
    }
    Ok(leaves)
}

/// The root and a chain, as they are made of the leaves, and as a tree that is kept has them.
fn tree(alloc: Global, count: usize, place: usize) -> Result<String, NoAnswer> {
    let leaves = leaves(alloc, count)?;
    let Some(leaf) = leaves.get(place) else {
        return Err(NoAnswer::Word(3));
    };
    let top = root(&leaves);
    let hashes = chain(alloc, &leaves, place)?;
    if height(leaves.len()) != hashes.len() {
        return said(alloc, "a chain of another height");
    }
    if !leads_to(&top, place, leaf, &hashes) {
        return said(alloc, "a chain that leads astray");
    }
    let kept = Tree::new(leaves)?;
    if kept.root() != top || kept.chain(place)? != hashes {
        return said(alloc, "another kept tree");
    }
    let (top, beside) = (in_hex(alloc, &top)?, hashes_in_hex(alloc, &hashes)?);
    joined(alloc, &[&top, &beside])
}

/// Whether the chain leads from the leaf at its place to the root, and from no other leaf or place.
fn leads_to(root: &[u8; 32], place: usize, leaf: &[u8; 32], chain: &[[u8; 32]]) -> bool {
    check(root, place, leaf, chain)
        && !check(root, place.wrapping_add(256), leaf, chain)
        && !check(root, place, &[0; 32], chain)
        && (chain.is_empty() || !check(root, place ^ 1, leaf, chain))
}

/// The root of so many leaves and one that pads them.
fn padded(alloc: Global, text: &str, count: usize) -> Result<String, NoAnswer> {
    let mut leaves = leaves(alloc, count)?;
    leaves.push(tagged(b"webgate_tree_empty_leaf_v1", text.as_bytes()))?;
    if leaves.is_empty() {
        return said(alloc, "no leaves");
    }
    Ok(in_hex(alloc, &root(&leaves))?)
}
