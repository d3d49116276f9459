//! Why no sheet is printed.

use std::error::Error;
use std::fmt;

use crate::library::has_place;

/// Why no sheet is printed, and where.
#[derive(Clone, Debug, PartialEq, Eq, Hash)]
pub struct RenderError {
    /// The refusal's number.
    pub number: u32,
    /// What the number stands for.
    pub reason: Reason,
    /// The innermost named template; none where the reason has no place.
    pub template: Option<String>,
    /// The line of the innermost element, as the bundle has it; 0 where the reason has no place.
    pub line: u64,
    /// The column of the innermost element, as the bundle has it; 0 where the reason has no place.
    pub column: u64,
}

impl fmt::Display for RenderError {
    fn fmt(&self, f: &mut fmt::Formatter<'_>) -> fmt::Result {
        write!(f, "{}", self.reason)?;
        match &self.template {
            Some(name) => write!(f, ", at line {}, column {} of template {name:?}", self.line, self.column),
            None => Ok(()),
        }
    }
}

impl Error for RenderError {}

macro_rules! reasons {
    ($($number:literal $name:ident $text:literal;)*) => {
        /// What the numbers of refusals stand for, in the order in which they are looked for.
        #[derive(Clone, Copy, Debug, PartialEq, Eq, Hash)]
        #[non_exhaustive]
        pub enum Reason {
            $(#[doc = concat!($number, ": ", $text, ".")] $name,)*
        }

        impl Reason {
            /// The refusal's number.
            pub fn number(self) -> u32 {
                match self {
                    $(Reason::$name => $number,)*
                }
            }

            /// Whether a refusal of this kind tells a template, a line and a column.
            pub fn has_place(self) -> bool {
                has_place(self.number())
            }

            /// What this number stands for.
            pub(crate) fn of_number(number: u32) -> Option<Reason> {
                match number {
                    $($number => Some(Reason::$name),)*
                    _ => None,
                }
            }
        }

        impl fmt::Display for Reason {
            fn fmt(&self, f: &mut fmt::Formatter<'_>) -> fmt::Result {
                f.write_str(match self {
                    $(Reason::$name => $text,)*
                })
            }
        }
    };
}

reasons! {
    1 ScratchTooShort "a scratch buffer is too short";
    2 BundleTooLong "the bundle is longer than 65,536 bytes";
    3 BadLayout "the bundle breaks the layout";
    4 PartialContext "a partial's first parameter is a name or a path";
    5 StrictWithGuideTruth "strict and guide truth are both set";
    6 TemplateNotFound "the starting template is not in the bundle";
    7 PlanTooLong "the plan is longer than 65,536 bytes";
    8 NotJson "the plan is no JSON text, or is too deep";
    9 NotInteger "the plan has a number that is no integer of 64 bits";
    10 TooManyValues "the plan has more than 4,096 values";
    11 MissingVariable "a variable is missing";
    12 PartialNotFound "a partial is not found";
    13 PartialBlockNotFound "there is no partial block";
    14 HelperNotFound "a helper is not found";
    15 ParamNotFoundForIndex "a parameter is missing";
    16 DecoratorNotFound "a decorator is not found";
    17 CannotIncludeSelf "a template includes itself";
    18 InvalidParamType "a parameter has the wrong type";
    19 BlockContentRequired "a block is wanted";
    20 InvalidJsonIndex "a list has no such index";
    21 IndentTooLong "an indent is longer than 256 bytes";
    22 TooManyEntries "merged objects and inline partials have more than 4,096 entries";
    23 TooManyScopes "more than 32 scopes are open";
    24 BlockTextsTooLong "block texts are longer than 16,384 bytes";
    25 PageFull "the text does not fit the page";
}
