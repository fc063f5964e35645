//! Tests of graphs, of their rates and capacities, and of what claims decide, through the public calls: graphs worked
//! out by hand.

mod balances;
mod claims;
mod drawn;
mod limits;
mod order;
mod refusals;
mod slices;
