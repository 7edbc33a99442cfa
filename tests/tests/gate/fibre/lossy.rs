//! Two ends on lossy lines.

use crate::helpers::scripts::compare_random;
use second::fibre::generate::links;

#[test]
fn lossy_links() {
    compare_random("fibre links", links, 10, 25_000);
}
