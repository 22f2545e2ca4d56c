/* The names behind the numbers of include/movesig.h, and the library's version. Plain tables, written by
 * hand and not proved; the crate's tests hold them equal to the header's and the crate's lists. */
#include <movesig.h>

const uint32_t MOVESIG_VERSION_SYMBOL = MOVESIG_VERSION;

uint32_t movesig_version(void)
{
    return MOVESIG_VERSION;
}

const char *movesig_reason(uint32_t refusal)
{
    switch (refusal) {
    case MOVESIG_ACCEPTED:
        return "accepted";
    case MOVESIG_TEXT_TOO_LONG:
        return "text over 1,048,575 bytes";
    case MOVESIG_START_PAST_END:
        return "start past the text's end";
    case MOVESIG_NO_SUCH_KIND:
        return "no such kind of item";
    case MOVESIG_NO_ROOM:
        return "answer longer than the buffer, or a line than 65,535 bytes";
    case MOVESIG_NO_TOKEN:
        return "no token starts with this byte";
    case MOVESIG_COMMENT_NOT_CLOSED:
        return "block comment not closed";
    case MOVESIG_HEX_STRING_NOT_CLOSED:
        return "hex string without closing quote in its line";
    case MOVESIG_BYTE_STRING_NOT_CLOSED:
        return "byte string without closing quote in its line";
    case MOVESIG_STRING_NOT_ASCII:
        return "byte of 128 or more in a string";
    case MOVESIG_UNEXPECTED_TOKEN:
        return "unexpected token";
    case MOVESIG_COMMA_FOR_ITEM:
        return "comma where a list item was due";
    case MOVESIG_LIST_NOT_CLOSED:
        return "list neither continued nor closed";
    case MOVESIG_NO_VALUE:
        return "no value here";
    case MOVESIG_TOO_DEEP:
        return "more than 64 levels";
    case MOVESIG_RECORD_UNFIT:
        return "record that does not fit its bytes";
    case MOVESIG_NO_RECORD_KIND:
        return "no such kind of record";
    case MOVESIG_NOT_ALLOWED:
        return "child or span not allowed";
    case MOVESIG_LINE_UNPRINTABLE:
        return "the line would hold a control byte";
    case MOVESIG_NO_SUCH_EDITION:
        return "no such edition";
    case MOVESIG_NOT_A_TOKEN_START:
        return "no token of edition 1 starts at the note, or it is past the 256th";
    case MOVESIG_NOTHING_STARTS:
        return "no token starts or ends here";
    default:
        return "unknown";
    }
}

const char *movesig_item_name(uint64_t kind)
{
    switch (kind) {
    case MOVESIG_NAME:
        return "name";
    case MOVESIG_VALUE:
        return "value";
    case MOVESIG_TYPE:
        return "type";
    case MOVESIG_BIND_LIST:
        return "binds";
    case MOVESIG_LAMBDA_BIND_LIST:
        return "lambda";
    default:
        return "unknown";
    }
}

const char *movesig_record_name(uint64_t kind)
{
    switch (kind) {
    case MOVESIG_REC_NAME:
        return "name";
    case MOVESIG_REC_ADDRESS:
        return "address";
    case MOVESIG_REC_ONE_PART:
        return "one-part chain";
    case MOVESIG_REC_TWO_PART:
        return "two-part chain";
    case MOVESIG_REC_THREE_PART:
        return "three-part chain";
    case MOVESIG_REC_PAIR:
        return "pair";
    case MOVESIG_REC_TYPE:
        return "type";
    case MOVESIG_REC_REF:
        return "reference";
    case MOVESIG_REC_REF_MUT:
        return "mutable reference";
    case MOVESIG_REC_FUNCTION:
        return "function type";
    case MOVESIG_REC_UNIT:
        return "unit";
    case MOVESIG_REC_TUPLE:
        return "tuple";
    case MOVESIG_REC_BRACKETS:
        return "brackets";
    case MOVESIG_REC_VARIABLE:
        return "variable";
    case MOVESIG_REC_STRUCT:
        return "struct";
    case MOVESIG_REC_STRUCT_TYPED:
        return "struct with types";
    case MOVESIG_REC_FIELD:
        return "field";
    case MOVESIG_REC_BIND_LIST:
        return "binding list";
    case MOVESIG_REC_LAMBDA_BIND_LIST:
        return "lambda binding list";
    case MOVESIG_REC_ADDRESS_VALUE:
        return "address value";
    case MOVESIG_REC_NUMBER:
        return "number";
    case MOVESIG_REC_TRUE:
        return "true";
    case MOVESIG_REC_FALSE:
        return "false";
    case MOVESIG_REC_HEX_STRING:
        return "hex string";
    case MOVESIG_REC_BYTE_STRING:
        return "byte string";
    default:
        return "unknown";
    }
}

const char *movesig_token_name(uint64_t kind)
{
    static const char *const names[] = {
        "EOF", "NumValue", "NumTypedValue", "ByteStringValue", "Identifier", "Exclaim", "ExclaimEqual",
        "Percent", "Amp", "AmpAmp", "AmpMut", "LParen", "RParen", "LBracket", "RBracket", "Star", "Plus",
        "Comma", "Minus", "Period", "PeriodPeriod", "Slash", "Colon", "ColonColon", "Semicolon", "Less",
        "LessEqual", "LessLess", "Equal", "EqualEqual", "EqualEqualGreater", "LessEqualEqualGreater",
        "Greater", "GreaterEqual", "GreaterGreater", "Caret", "Abort", "Acquires", "As", "Break",
        "Continue", "Copy", "Else", "False", "If", "Invariant", "Let", "Loop", "Module", "Move", "Native",
        "Public", "Return", "Spec", "Struct", "True", "Use", "While", "LBrace", "Pipe", "PipePipe",
        "RBrace", "Fun", "Script", "Const", "Friend", "NumSign", "AtSign",
    };
    return kind < sizeof names / sizeof *names ? names[kind] : "unknown";
}
