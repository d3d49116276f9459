// zerwydd {
pub mod path;
pub mod value;
// zerwydd }
