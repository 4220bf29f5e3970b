//! Tests: the paper's figures and session, a slow reading of the paper, and the edges of everything.

mod audits;
mod calls;
mod colour;
mod counts;
mod desk;
mod figures;
mod grey;
mod judge;
mod lines;
mod random;
mod readings;
mod salvage;
mod saves;
mod slow;
mod steps;
mod written;
