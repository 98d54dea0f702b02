//! Operator numbers of the base language (document 000, B.3) and their names.

macro_rules! operators {
    ($($name:ident = $number:literal)*) => {
        $(pub const $name: u16 = $number;)*
        pub const NAMES: &[(&str, u16)] = &[$((stringify!($name), $number)),*];
    };
}

operators! {
    NOP = 1
    GET = 17
    FGET = 20
    FSET = 21
    BEGIN = 102
    END = 103
    CONTENTINSTRUCTIONS = 105
    OPEN = 106
    CLOSE = 107
    CORRECT = 110
    MAKESIMPLECO = 114
    FINDOPERATOR = 116
    DOSAVESIMPLEBODY = 120
    POP = 180
    DUP = 181
    COPY = 183
    ROLL = 184
    EXCH = 185
    MARK = 186
    UNMARK = 187
    COUNT = 188
    UNMARK0 = 192
    ABS = 200
    ADD = 201
    AND = 202
    CEILING = 203
    DIV = 204
    EQ = 205
    FLOOR = 206
    GE = 207
    GT = 208
    MOD = 209
    MUL = 210
    NEG = 211
    NOT = 212
    OR = 213
    SUB = 214
    TRUNC = 215
    REM = 216
    ROUND = 217
    TYPE = 220
    DO = 231
    DOSAVE = 232
    DOSAVEALL = 233
    IF = 239
    IFCOPY = 240
    IFELSE = 241
    MAKEVECLU = 282
    MAKEVEC = 283
    SHAPE = 285
    GETP = 286
    GETPROP = 287
    MERGEPROP = 288
    ERROR = 600
}

/// The operators that stand directly before their body.
#[inline]
pub fn takes_body(op: u16) -> bool {
    matches!(op, CORRECT | MAKESIMPLECO | DOSAVESIMPLEBODY | IF | IFCOPY | IFELSE)
}
