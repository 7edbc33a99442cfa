//! Two ends on lossy lines.

use crate::helpers::scripts::compare_random;
use second::t1::generate::links;

#[test]
fn lossy_links() {
    compare_random("links", links, 20, 50_000);
}
