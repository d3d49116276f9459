// zerwydd {
// The source's grammar.rs is made by pest; these are the rules that a path keeps.

#[allow(non_camel_case_types)]
#[derive(PartialEq, Eq, Clone, Copy, Debug)]
pub enum Rule {
    path_root,
    path_up,
    path_local,
}
// zerwydd }
