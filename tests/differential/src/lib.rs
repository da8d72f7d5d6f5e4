//! An independent implementation of the curve planner's papers (`reference`), of lists that are carried
//! out step by step (`states`), of the load counts of all drive sizes (`sizes`) and of the small public
//! functions below it (`parts`), where its tie rule matters (`ties`), two fast implementations for the
//! benchmark (`tuned`, and in C `fast`), random inputs (`generate`), among them lists without tests
//! (`empty`), lists with large degrees (`degrees`), drives with booked places (`booked`), drives that hold
//! something at the start (`holding`), lists carried out (`walks`), jobs with the withdrawn method
//! (`withdrawn`) and lists for drives of all sizes (`drives`), and the library under test (`product`, only
//! with the feature of that name).

pub mod booked;
pub mod degrees;
pub mod drives;
pub mod empty;
pub mod fast;
pub mod generate;
pub mod holding;
pub mod parts;
pub mod random;
pub mod reference;
pub mod sizes;
pub mod states;
pub mod ties;
pub mod tuned;
pub mod walks;
pub mod withdrawn;

#[cfg(feature = "product")]
pub mod product;

#[cfg(test)]
mod consistency;
#[cfg(test)]
mod every_size;
#[cfg(test)]
mod examples;
#[cfg(test)]
mod fewer_places;
#[cfg(test)]
mod halfway;
#[cfg(test)]
mod look_then_commit;
#[cfg(test)]
mod method_two;
#[cfg(test)]
mod stored;
#[cfg(test)]
mod two_bytes;
