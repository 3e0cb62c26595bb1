//! What a picture shows is read back from its bytes, so that a wrong picture is seen also where the reference is wrong in the same way.

use overlay_tests::picture::{compare_pictures, SLIPS};

/// What is not read back: how large things are that are no ground, hatchings, the legend.
const UNREAD: [&str; 7] = [
    "a unit of the longer side",
    "a scale bar longer than 40 units",
    "no scale bar of a kilometre",
    "the hatchings of layers 1 and 2 exchanged",
    "three hatchings for six layers",
    "a cross of a millimetre",
    "number and margin of a layer exchanged in the legend",
];

#[test]
fn wrong_pictures_do_not_show_the_plan() {
    for (wrong, name) in SLIPS {
        let seen = compare_pictures(&|plan| wrong.picture(plan), &|plan| wrong.picture(plan)).is_err();
        assert_eq!(seen, !UNREAD.contains(&name), "{name}");
    }
}
