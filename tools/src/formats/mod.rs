//! Files of layout people: a net and its wires as GDSII and as DEF, and nets and trees back from both.

pub mod def;
pub mod drawing;
pub mod found;
pub mod gds;

/// Which layout bytes begin as, for somebody who takes one for a net or for a tree.
pub fn layout(bytes: &[u8]) -> Option<&'static str> {
    if gds::is_gds(bytes) {
        return Some("GDSII");
    }
    def::is_def(bytes).then_some("DEF")
}
