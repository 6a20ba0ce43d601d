//! NMEA 0183 sentences and logs, read by functions that are proved to meet
//! their contracts.
//!
//! Any bytes may be given to any function here. A line is answered with a
//! record, with talker and type where that is known and not read, or with a numbered
//! refusal:
//!
//! ```
//! use proved_nmea::{read, Refusal, Sentence};
//!
//! let line = b"$GNRMC,101500.25,A,5130.5,N,00006.0,W,4.5,270.0,290224,,,A*5F";
//! let Sentence::Rmc(fix) = read(line)? else { panic!("it is an RMC sentence") };
//! let position = fix.position.expect("it has a position");
//! // Exact, in billionths of a minute; and as a float, in degrees.
//! assert_eq!(position.longitude.billionths, -6_000_000_000);
//! assert_eq!(position.longitude.degrees, -0.1);
//! assert_eq!(fix.speed.expect("it has a speed").to_string(), "4.5");
//!
//! let refusal = read(b"$GPGSA,A,1,,,,*33").unwrap_err();
//! assert_eq!(refusal, Refusal::Checksum { calculated: 0x32, found: 0x33 });
//! assert_eq!(refusal.number(), 6);
//! # Ok::<(), Refusal>(())
//! ```
//!
//! Receivers that send no RMC send their places in GGA or GLL, and their speed
//! in VTG:
//!
//! ```
//! use proved_nmea::{read, FixType, Sentence};
//!
//! let line = b"$GPGGA,123519,4807.038,N,01131.324,E,1,08,0.9,545.4,M,46.9,M,,*42";
//! let Sentence::Gga(fix) = read(line)? else { panic!("it is a GGA sentence") };
//! assert_eq!(fix.fix, FixType::Gps);
//! assert_eq!(fix.position.expect("a position").latitude.to_string(), "48 07.038000000 N");
//! assert_eq!(fix.altitude.expect("an altitude").to_string(), "545.4");
//!
//! let line = b"$GPVTG,054.7,T,034.4,M,005.5,N,010.2,K*48";
//! let Sentence::Vtg(track) = read(line)? else { panic!("it is a VTG sentence") };
//! assert_eq!(track.speed.expect("a speed").to_string(), "5.5 knots");
//! # Ok::<(), proved_nmea::Refusal>(())
//! ```
//!
//! A log of any size is read line by line by a [`Reader`]: each line's answer,
//! and the satellite groups that stand in the log. Both come from proved code;
//! cutting the log into lines is plain Rust. A [`Tally`] takes lines that are
//! cut already. The totals of a small log are counted by [`walk`] in one call.
//!
//! What is read, and how, is in the repository's `docs/01-scope.md`, the
//! refusals and letters in `docs/LISTS.md`.

#![deny(unsafe_code)]
#![warn(missing_docs)]

#[macro_use]
mod letters;

pub mod abi;
mod coordinate;
mod decimal;
mod gga;
mod gll;
mod groups;
mod gsa;
mod gsv;
mod log;
mod places;
mod reader;
mod refusal;
mod rmc;
mod sentence;
mod system;
mod tally;
mod time;
mod vtg;
mod words;

pub use coordinate::{Coordinate, Hemisphere, Position};
pub use decimal::Decimal;
pub use gga::{FixType, Gga};
pub use gll::{DataStatus, Gll};
pub use groups::Group;
pub use gsa::{Dops, Fix, Gsa, Selection};
pub use gsv::{Entry, Gsv};
pub use letters::{Letters, Talker, TypeName};
pub use log::{walk, Totals};
pub use reader::{ReadError, Reader, LONGEST_LINE};
pub use refusal::Refusal;
pub use rmc::{Mode, NavigationalStatus, Rmc, Status};
pub use sentence::{read, refusal_number, Other, Sentence};
pub use system::System;
pub use tally::{Answer, Kind, Line, Tally};
pub use time::{Date, Time};
pub use vtg::{Speed, SpeedUnit, Vtg};

/// So that the example of the README is run.
#[cfg(doctest)]
#[doc = include_str!("../README.md")]
struct Readme;
