//! The independent program: the product of document 01, written a second time
//! from the customer's documents alone and chosen for clarity, not for speed.
//!
//! | module     | subject                                                     |
//! |------------|-------------------------------------------------------------|
//! | `refusal`  | the numbered refusals                                       |
//! | `head`     | the eight values of a system and what follows from them     |
//! | `boxes`    | a box, its halves, its middle and half width                |
//! | `wide`     | whole numbers of 192 bits                                   |
//! | `exact`    | the numbers of a box by document 004's formula (2)          |
//! | `cut`      | the numbers of both halves by 01's cutting rule             |
//! | `records`  | the reader that hands out record after record               |
//! | `read`     | a system file read                                          |
//! | `write`    | a system file written                                       |
//! | `rules`    | what becomes of a box                                       |
//! | `state`    | the state, the start, the check of a state                  |
//! | `visit`    | one visit in the lent stores, by the cutting rule           |
//! | `run`      | a run in the lent stores, by the cutting rule               |
//! | `fresh`    | a run from a fresh start, every number by the formula       |
//! | `program`  | what the desk program prints                                |
//! | `hash`     | FNV-1a                                                      |
//! | `random`   | the seeded generator                                        |
//! | `systems`  | seeded systems of all shapes                                |
//! | `damage`   | seeded faults in system files                               |
//! | `generate` | the files that `generate` writes                            |
//! | `sweep`    | every truncation, change and extension of one file          |
//! | `calls`    | library calls as bytes, and their answers as text           |

#![forbid(unsafe_code)]

pub mod boxes;
pub mod calls;
pub mod cut;
pub mod damage;
pub mod exact;
pub mod fresh;
pub mod generate;
pub mod hash;
pub mod head;
pub mod program;
pub mod random;
pub mod read;
pub mod records;
pub mod refusal;
pub mod rules;
pub mod run;
pub mod state;
pub mod sweep;
pub mod systems;
pub mod visit;
pub mod wide;
pub mod write;
