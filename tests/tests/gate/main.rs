//! The proved programs and the calls from C against the second implementation, and all against document 01 with
//! document 02's requests #101, #102, #104 to #107, #109 and #110.
//!
//! A folder for each thing tested. Its modules import from `helpers` and from the second implementation only, so none
//! of them has a public item.
//!
//! SIMHADOL_BENCH names the program that starts the consoles, SIMHADOL_C the folder of the C programs, SIMHADOL_SEED
//! the first seed.

mod helpers;

mod frames {
    mod build_and_check;
    mod crc;
    mod faults;
    mod first_fault;
}

mod finder {
    mod places;
    mod skips;
    mod values;
}

mod ends {
    mod calls;
    mod read_only_bits;
}

mod reasons {
    mod runs;
    mod symbols;
}

mod counts {
    mod events;
    mod runs;
}

mod presence {
    mod runs;
    mod symbols;
    mod values;
}

mod links {
    mod demand3;
    mod lossy;
}

mod reports {
    mod cases;
    mod lossy;
    mod offered;
    mod promise;
    mod turns;
}

mod fibre {
    mod bound;
    mod calls;
    mod cases;
    mod console;
    mod demand3;
    mod lossy;
}

mod records {
    mod beyond;
    mod calls;
    mod layout;
    mod runs;
    mod upgrades;
    mod versions;
}

mod programs {
    mod c;
    mod cases;
    mod console;
    mod vectors;
}
