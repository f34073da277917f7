//! Whether versions answer the same, although their answers have different types.

use brazulint::Delivery;
use plain::read::Delivered;

/// Whether a span was read as the plain reader reads it, apart from its rows.
pub fn same(own: &Delivery, plain: &Delivered) -> bool {
    let content = [own.content.sav1, own.content.sav2, own.content.eav1, own.content.eav2];
    let disparities = (own.positive_before, own.positive_after) == (plain.positive_before, plain.positive_after);
    let repairs = (own.repairs, own.repairs_of_bit) == (plain.repairs, plain.repairs_of_bit);
    (own.line.0, content) == (plain.line, plain.content) && disparities && repairs
}
