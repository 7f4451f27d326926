//! Maps whose handles never come to mean another entry, and a store that answers lines of text,
//! over static libraries that are proved.
//!
//! ```
//! use route_arenas::SlotMap;
//!
//! let mut trees = SlotMap::new()?;
//! let oak = trees.insert(5)?;
//! let elm = trees.insert(7)?;
//! trees.remove(oak);
//! let ash = trees.insert(9)?; // at the index of the oak
//! assert_eq!((trees.get(oak), trees.get(elm), trees.get(ash)), (None, Some(7), Some(9)));
//! # Ok::<(), route_arenas::Error>(())
//! ```
//!
//! ```
//! use route_arenas::RouteBook;
//!
//! let mut book = RouteBook::new(10, 10, 10)?;
//! let mut replies = Vec::new();
//! book.answer(b"place 50 oak\nstart 1\nshow 2\n", &mut replies);
//! assert_eq!(replies, b"1\n2\nat 1\n");
//! # Ok::<(), route_arenas::Error>(())
//! ```
//!
//! What is proved is what each call of the library answers, writes and leaves. What stands on trust
//! is this package, that its declarations in one module agree with the exports (a script of the
//! repository compares them), and the program's heap.
#![warn(missing_docs)]
#![deny(unsafe_op_in_unsafe_fn)]

mod error;
mod exports;
mod ord_map;
mod route_book;
mod slot_map;

pub use error::Error;
pub use ord_map::{Nearest, OrdHandle, OrdIter, OrdMap};
pub use route_book::{Progress, RouteBook};
pub use slot_map::{Iter, SlotHandle, SlotMap};
