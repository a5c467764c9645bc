/*
 * Names and sentences of the refusals, and the version. They stand here and not in the header so that a program which does not
 * print them does not carry them, and so that the header has declarations alone, which is what tools that make bindings read.
 *
 * Licence: Apache-2.0.
 */
#include "ciztarmo.h"

struct text {
    uint64_t number;
    const char *name;
    const char *sentence;
};

/* Found by their numbers, not by place: C++, as which this file compiles too, has no designated places in an array. */
static const struct text texts[] = {
    {CIZTARMO_ACCEPTED, "Accepted", "nothing is refused"},
    {CIZTARMO_INPUT_TOO_LONG, "InputTooLong", "an input is longer than 65,536 bytes"},
    {CIZTARMO_BLOCK_DOES_NOT_FIT, "BlockDoesNotFit",
     "a block does not lie inside its parent, may not stand there or is not used up exactly, or bytes follow the outermost "
     "block"},
    {CIZTARMO_INVALID_NAME, "InvalidName", "a name or text is longer than 255 bytes, is not UTF-8, or has a byte below 0x20 or the byte 0x7F"},
    {CIZTARMO_ABOVE_LIMIT, "AboveLimit", "a count, or the number of blocks open together, is above its limit"},
    {CIZTARMO_INVALID_FLAG_OR_LITERAL, "InvalidFlagOrLiteral", "a flag is neither 0 nor 1, or a literal is outside its type"},
    {CIZTARMO_NAMES_OUT_OF_ORDER, "NamesOutOfOrder", "names do not ascend, or two types have one name"},
    {CIZTARMO_UNSUPPORTED_SIZE, "UnsupportedSize", "a type of this shape has no variable size"},
    {CIZTARMO_MISSING_DYNAMIC_REFS, "MissingDynamicRefs", "references that the layout needs are missing"},
    {CIZTARMO_MISSING_PARAMETER, "MissingParameter", "a path names no parameter"},
    {CIZTARMO_UNSUPPORTED_ARRAY_ELEMENT, "UnsupportedArrayElement", "an array has elements of an unsupported shape"},
    {CIZTARMO_UNSUPPORTED_EXPRESSION, "UnsupportedExpression", "an expression can't be turned into a node"},
    {CIZTARMO_MISSING_TYPE, "MissingType", "a type that is referred to is not in the set"},
    {CIZTARMO_OFFSET_TOO_LARGE, "OffsetTooLarge", "a field's offset and size together reach 2^64"},
    {CIZTARMO_TOO_MUCH_TO_WRITE, "TooMuchToWrite",
     "a name or text to be written is longer than 255 bytes, or there are more than 512 registry entries or arguments"},
    {CIZTARMO_LAYOUT_DOES_NOT_FIT, "LayoutDoesNotFit",
     "the output, or 65,536 bytes, do not hold the layout, or it could not be read back"},
    {CIZTARMO_TOO_FEW_WORDS, "TooFewWords", "there are fewer than 8,192 working words"},
    {CIZTARMO_UNKNOWN_TYPE, "UnknownType", "the asked type, or one that is called, is not in the layout"},
    {CIZTARMO_MISSING_IR_PARAMETER, "MissingIrParameter", "a parameter that the layout needs has no value"},
    {CIZTARMO_INVALID_TAG_VALUE, "InvalidTagValue", "a switch has no case for its tag"},
    {CIZTARMO_ARITHMETIC_OVERFLOW, "ArithmeticOverflow", "a result is below zero, a divisor is zero, or a shift is by 128 or more"},
    {CIZTARMO_UNSUPPORTED_OPERATION, "UnsupportedOperation", "a sum over an array is asked for"},
    {CIZTARMO_BUFFER_TOO_SMALL, "BufferTooSmall", "the count is above the buffer length"},
    {CIZTARMO_RESULT_TOO_LARGE, "ResultTooLarge", "an exact result reaches 2^64"},
    {CIZTARMO_TOO_MANY_CALLS, "TooManyCalls", "a 17th call would be open"},
};

static const struct text unknown = {0, "?", "?"};

static const struct text *text_of(uint64_t number)
{
    for (size_t i = 0; i < sizeof texts / sizeof texts[0]; i++)
        if (texts[i].number == number)
            return &texts[i];
    return &unknown;
}

const char *ciztarmo_refusal_name(uint64_t number)
{
    return text_of(number)->name;
}

const char *ciztarmo_refusal_sentence(uint64_t number)
{
    return text_of(number)->sentence;
}

const char *ciztarmo_version(void)
{
    return CIZTARMO_VERSION;
}
