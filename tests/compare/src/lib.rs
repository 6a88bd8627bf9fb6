//! The proved planner's C interface compared, call by call, with the naive reference.

pub mod by_history;
pub mod calls;
pub mod case;
pub mod edges;
pub mod files;
pub mod hostile;
pub mod keepings;
#[cfg(library)]
mod library;
pub mod lists;
pub mod naive;
pub mod records;
pub mod rosters;
pub mod rounds;
pub mod searches;
pub mod session;
pub mod stack;
pub mod storage;
pub mod storages;
pub mod trial;
pub mod wards;
pub mod words;

/// The proved planner, where its static library was found.
pub fn library() -> Option<Box<dyn calls::Calls>> {
    #[cfg(library)]
    return Some(Box::new(library::Library));
    #[cfg(not(library))]
    None
}
