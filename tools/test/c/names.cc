// Names every struct of the header without `struct`, as C++ allows. tools/test/c_library.sh compiles it with -Wshadow.
#include "wat.h"

int main() {
    const uint8_t text[] = {'$', 'x', ' ', '1'};
    wat_row rows[2] = {};
    const wat_filled filled = wat_rows(text, sizeof text, 0, false, false, rows, 2);
    const wat_found found = wat_scan(text, sizeof text, 0, false, false);
    const wat_token token = wat_token_at(text, sizeof text, 0, false, false);
    const wat_kind kind = token.kind;
    const wat_range name = wat_word(text, sizeof text, &rows[0]);
    const wat_range comment = wat_comment(text, sizeof text, 0, false, false);
    const wat_number number = wat_integer_of(text, sizeof text, &rows[1], 32, false);
    const wat_position position = wat_line_column(text, sizeof text, 3);
    const wat_look look = wat_shown(text, sizeof text, rows, filled.count, filled.why, 0, text, 0, &position.line, 0);
    uint8_t out[8] = {};
    const wat_answer digits = wat_digits_of(text, sizeof text, &rows[1], out, sizeof out);
    const wat_checked error = wat_check(text, sizeof text, false, out, sizeof out);
    const bool is_right = filled.count == 2 && found.token.len == 2 && kind.code == WAT_ID && name.start == 1 && name.len == 1
        && comment.status == WAT_ABSENT && number.value == 1 && position.column == 3 && look.row == 0 && digits.needed == 1
        && error.offset == 0 && error.len == 2;
    return is_right ? 0 : 1;
}
