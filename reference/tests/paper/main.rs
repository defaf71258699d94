//! Document 01, sentence by sentence, through the public book; in `kept`
//! order 1 of document 02, in `filed` order 2, in `curves` and `closes`
//! order 3, in `sides` and `zones` order 6, in `tape` order 8. Order 5 is
//! tested beside the library's `chart`.

mod closes;
mod curves;
mod edges;
mod extremes;
mod filed;
mod helpers;
mod kept;
mod order;
mod readings;
mod refusals;
mod sides;
mod soundness;
mod stages;
mod tape;
mod walk;
mod worked;
mod zones;
