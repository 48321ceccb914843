//! The port beside the original: its calls on the same images, changes that damage an image, and an independent reading of the tests.

pub mod damage;
pub mod grow;
pub mod port;
pub mod rules;
