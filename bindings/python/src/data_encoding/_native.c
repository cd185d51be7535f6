/* The calls of the library for C, as data_encoding/__init__.py uses them.
 *
 * Only `decode_unpadded` decides anything about a text: its padding. An object of Python is made an
 * array, a call of the library is made, and its output is made an object. With Py_LIMITED_API,
 * which setup.py defines from Python 3.11 on, the interface is the stable one, so that one build
 * serves all later versions.
 */
#define PY_SSIZE_T_CLEAN
#include <Python.h>

#include "data_encoding.h"

#include <stdint.h>
#include <stdio.h>
#include <string.h>

/* Output up to this length is written on the stack first. */
#define SMALL 512

/* At most this far from the front of a str are its characters, if it has them itself. The tests
 * define it as 0 as well, so that every text is copied. */
#ifndef HEADER_LIMIT
#define HEADER_LIMIT 128
#endif

/* From this length on other threads run during a call, if nothing can change its input. */
#define THREADED 8192

/* A predefined encoding by its number, with its tables for its layout; or one by its tables. */
typedef struct {
    PyObject_HEAD
    bool is_predefined;
    de_number number;
    de_encoding tables;
} encoding;

static const encoding *encoding_of(PyObject *self) {
    return (const encoding *)(void *)self;
}

/* The calls by the number of an encoding or by its tables. */

static de_status text_len(const encoding *it, size_t len, size_t *result) {
    return it->is_predefined ? de_encode_len(it->number, len, result)
                             : de_encoding_encode_len(&it->tables, len, result);
}

static de_status most_data(const encoding *it, size_t len, size_t *result) {
    return it->is_predefined ? de_decode_len(it->number, len, result)
                             : de_encoding_decode_len(&it->tables, len, result);
}

static de_status most_of_piece(const encoding *it, const de_decoder *decoder, size_t len,
                               size_t *result) {
    return it->is_predefined ? de_decoder_most(it->number, decoder, len, result)
                             : de_encoding_decoder_most(&it->tables, decoder, len, result);
}

static de_status text_of_piece(const encoding *it, const de_encoder *encoder, size_t len,
                               size_t *result) {
    return it->is_predefined ? de_encoder_most(it->number, encoder, len, result)
                             : de_encoding_encoder_most(&it->tables, encoder, len, result);
}

/* The bytes of an object, or of a copy. */
struct input {
    const char *start;
    size_t len;
    bool is_fixed;
    Py_buffer view;
    PyObject *copy;
};

static void release(struct input *input) {
    if (input->view.obj != NULL) {
        PyBuffer_Release(&input->view);
    }
    Py_XDECREF(input->copy);
}

static bool take_bytes(struct input *input, PyObject *bytes) {
    input->start = PyBytes_AsString(bytes);
    input->len = (size_t)PyBytes_Size(bytes);
    input->is_fixed = true;
    return true;
}

static bool take_copy(struct input *input, PyObject *copy) {
    input->copy = copy;
    return copy != NULL && take_bytes(input, copy);
}

/* Takes bytes, or any object that has a buffer. */
static bool take_data(struct input *input, PyObject *object) {
    input->view.obj = NULL;
    input->copy = NULL;
    input->is_fixed = false;
    if (PyBytes_Check(object)) {
        return take_bytes(input, object);
    }
    if (PyObject_GetBuffer(object, &input->view, PyBUF_SIMPLE) == 0) {
        input->start = (const char *)input->view.buf;
        input->len = (size_t)input->view.len;
        return true;
    }
    input->view.obj = NULL;
    if (!PyErr_ExceptionMatches(PyExc_BufferError)) {
        return false;
    }
    /* Its bytes are not one after the other. */
    PyErr_Clear();
    return take_copy(input, PyBytes_FromObject(object));
}

/* Returns a byte for each character: one that is not ASCII is invalid, and has one position. */
static PyObject *bytes_of_characters(PyObject *text) {
    Py_ssize_t len = PyUnicode_GetLength(text);
    PyObject *bytes = PyBytes_FromStringAndSize(NULL, len);
    char *output;
    Py_ssize_t index;
    if (bytes == NULL) {
        return NULL;
    }
    output = PyBytes_AsString(bytes);
    for (index = 0; index < len; index++) {
        Py_UCS4 character = PyUnicode_ReadChar(text, index);
        output[index] = (char)(unsigned char)(character < 128 ? character : 128);
    }
    return bytes;
}

/* Takes a string, or an object that `take_data` takes. */
static bool take_text(struct input *input, PyObject *object) {
    Py_ssize_t len = 0;
    if (!PyUnicode_Check(object)) {
        return take_data(input, object);
    }
    input->view.obj = NULL;
    input->copy = NULL;
    input->is_fixed = true;
    input->start = PyUnicode_AsUTF8AndSize(object, &len);
    input->len = (size_t)len;
    if (input->start != NULL && len == PyUnicode_GetLength(object)) {
        return true;
    }
    PyErr_Clear();
    return take_copy(input, bytes_of_characters(object));
}

static PyThreadState *let_others_run(const struct input *input) {
    return input->is_fixed && input->len >= THREADED ? PyEval_SaveThread() : NULL;
}

static void run_again(PyThreadState *thread) {
    if (thread != NULL) {
        PyEval_RestoreThread(thread);
    }
}

static de_status write_text(const encoding *it, const struct input *input, char *output,
                            size_t *len) {
    PyThreadState *thread = let_others_run(input);
    de_status status =
        it->is_predefined
            ? de_encode(it->number, input->start, input->len, output, *len, len)
            : de_encoding_encode(&it->tables, input->start, input->len, output, *len, len);
    run_again(thread);
    return status;
}

static de_status write_data(const encoding *it, const struct input *input, char *output,
                            size_t room, de_decoded *decoded) {
    PyThreadState *thread = let_others_run(input);
    de_status status =
        it->is_predefined
            ? de_decode(it->number, input->start, input->len, output, room, decoded)
            : de_encoding_decode(&it->tables, input->start, input->len, output, room, decoded);
    run_again(thread);
    return status;
}

static de_status write_piece(const encoding *it, de_decoder *decoder, const struct input *input,
                             char *output, size_t room, size_t *written) {
    PyThreadState *thread = let_others_run(input);
    de_status status = it->is_predefined
                           ? de_decoder_read(it->number, decoder, input->start, input->len,
                                             output, room, written)
                           : de_encoding_decoder_read(&it->tables, decoder, input->start,
                                                      input->len, output, room, written);
    run_again(thread);
    return status;
}

static de_status write_blocks(const encoding *it, de_encoder *encoder, const struct input *input,
                              char *output, size_t *len) {
    PyThreadState *thread = let_others_run(input);
    de_status status =
        it->is_predefined
            ? de_encoder_read(it->number, encoder, input->start, input->len, output, *len, len)
            : de_encoding_encoder_read(&it->tables, encoder, input->start, input->len, output,
                                       *len, len);
    run_again(thread);
    return status;
}

/* Raises that a call was refused. */
static PyObject *refused(de_status status) {
    PyErr_SetString(PyExc_ValueError, de_status_text(status));
    return NULL;
}

/* The kind of the fault of a text, or NULL for any other status. */
static const char *kind_of(de_status status) {
    switch (status) {
    case DE_INVALID_LENGTH:
        return "length";
    case DE_INVALID_SYMBOL:
        return "symbol";
    case DE_INVALID_TRAILING_BITS:
        return "trailing";
    case DE_INVALID_PADDING:
        return "padding";
    default:
        return NULL;
    }
}

static bool is_verdict(de_status status) {
    return status == DE_OK || kind_of(status) != NULL;
}

/* Raises a DecodeError with the data before the fault. */
static void raise_fault(de_status status, size_t position, PyObject *data) {
    PyObject *module = PyImport_ImportModule("data_encoding");
    PyObject *type = module == NULL ? NULL : PyObject_GetAttrString(module, "DecodeError");
    PyObject *error = NULL;
    if (type != NULL) {
        error = PyObject_CallFunction(type, "snO", kind_of(status), (Py_ssize_t)position, data);
    }
    if (error != NULL) {
        PyErr_SetObject(type, error);
    }
    Py_XDECREF(error);
    Py_XDECREF(type);
    Py_XDECREF(module);
}

/* A text that is being written. */
struct text {
    PyObject *object;
    char *output;
    bool is_copied;
};

/* Returns a str with unwritten characters, or NULL. The caller has the only reference, and len is
 * above 2: so no other str is changed. */
static PyObject *unwritten_text(size_t len, char **output) {
    Py_ssize_t size;
    const char *start;
    PyObject *object = PyUnicode_DecodeASCII("..", 2, NULL);
    if (object == NULL || PyUnicode_Resize(&object, (Py_ssize_t)len) != 0) {
        Py_XDECREF(object);
        return NULL;
    }
    start = PyUnicode_AsUTF8AndSize(object, &size);
    if (start == NULL || (uintptr_t)start - (uintptr_t)object >= HEADER_LIMIT) {
        /* It would be a copy of the characters. */
        Py_DECREF(object);
        return NULL;
    }
    *output = (char *)(uintptr_t)start;
    return object;
}

/* Makes room for a text of more than SMALL characters: in a str, or elsewhere if that can't be. */
static bool make_room(struct text *text, size_t len) {
    text->object = unwritten_text(len, &text->output);
    text->is_copied = text->object == NULL;
    if (text->is_copied) {
        PyErr_Clear();
        text->output = PyMem_Malloc(len);
    }
    if (text->output == NULL) {
        PyErr_NoMemory();
    }
    return text->output != NULL;
}

/* The text that was written, or NULL where the status refuses it. The room is given back. */
static PyObject *text_in(struct text *text, size_t len, de_status status) {
    if (text->is_copied) {
        if (status == DE_OK) {
            text->object = PyUnicode_DecodeASCII(text->output, (Py_ssize_t)len, NULL);
        }
        PyMem_Free(text->output);
    }
    if (status != DE_OK) {
        Py_CLEAR(text->object);
        return refused(status);
    }
    return text->object;
}

/* The text of the data, which is short if it is put on the stack first. */
static PyObject *encode_input(const encoding *it, const struct input *input) {
    char small[SMALL];
    struct text text;
    size_t len = SMALL;
    de_status status;
    if (input->len <= SMALL && write_text(it, input, small, &len) == DE_OK) {
        return PyUnicode_DecodeASCII(small, (Py_ssize_t)len, NULL);
    }
    status = text_len(it, input->len, &len);
    if (status != DE_OK) {
        return refused(status);
    }
    if (!make_room(&text, len)) {
        return NULL;
    }
    status = write_text(it, input, text.output, &len);
    return text_in(&text, len, status);
}

/* The text of a bytes object of at most this length mostly fits the stack. */
#define SHORT_BYTES (SMALL / 2)

/* The text of a short bytes object, by as few calls as that takes. NULL without an error where
 * encode_input has to make it. */
static PyObject *encode_short(const encoding *it, PyObject *bytes) {
    char small[SMALL];
    size_t len = 0;
    if (!it->is_predefined || de_encode(it->number, PyBytes_AsString(bytes),
                                        (size_t)Py_SIZE(bytes), small, SMALL, &len) != DE_OK) {
        return NULL;
    }
    return PyUnicode_DecodeASCII(small, (Py_ssize_t)len, NULL);
}

static PyObject *encode(PyObject *self, PyObject *object) {
    struct input input;
    PyObject *text = NULL;
    if (Py_IS_TYPE(object, &PyBytes_Type) && Py_SIZE(object) <= SHORT_BYTES) {
        text = encode_short(encoding_of(self), object);
        if (text != NULL || PyErr_Occurred()) {
            return text;
        }
    }
    if (take_data(&input, object)) {
        text = encode_input(encoding_of(self), &input);
        release(&input);
    }
    return text;
}

/* The same as bytes. */
static PyObject *encode_input_as_bytes(const encoding *it, const struct input *input) {
    char small[SMALL];
    PyObject *text;
    size_t len = SMALL;
    de_status status;
    if (input->len <= SMALL && write_text(it, input, small, &len) == DE_OK) {
        return PyBytes_FromStringAndSize(small, (Py_ssize_t)len);
    }
    status = text_len(it, input->len, &len);
    if (status != DE_OK) {
        return refused(status);
    }
    text = PyBytes_FromStringAndSize(NULL, (Py_ssize_t)len);
    if (text == NULL) {
        return NULL;
    }
    status = write_text(it, input, PyBytes_AsString(text), &len);
    if (status != DE_OK) {
        Py_DECREF(text);
        return refused(status);
    }
    return text;
}

static PyObject *encode_bytes(PyObject *self, PyObject *object) {
    struct input input;
    PyObject *text = NULL;
    if (take_data(&input, object)) {
        text = encode_input_as_bytes(encoding_of(self), &input);
        release(&input);
    }
    return text;
}

/* Takes the two arguments of a call that writes to the second, which has a buffer. */
static bool take_output(Py_buffer *output, const char *call, PyObject *const *arguments,
                        Py_ssize_t count) {
    if (count != 2) {
        PyErr_Format(PyExc_TypeError, "%s takes two arguments, not %zd", call, count);
        return false;
    }
    if (PyObject_GetBuffer(arguments[1], output, PyBUF_WRITABLE) == 0) {
        return true;
    }
    if (PyErr_ExceptionMatches(PyExc_BufferError) || PyErr_ExceptionMatches(PyExc_TypeError)) {
        PyErr_Format(PyExc_TypeError, "%s writes to a bytes-like object that can be changed", call);
    }
    return false;
}

/* Raises a ValueError if the input and the output overlap. */
static bool overlap(const struct input *input, const Py_buffer *output, const char *what) {
    uintptr_t from = (uintptr_t)input->start;
    uintptr_t to = (uintptr_t)output->buf;
    bool found = from < to + (size_t)output->len && to < from + input->len;
    if (found) {
        PyErr_Format(PyExc_ValueError, "the %s is in the output", what);
    }
    return found;
}

/* Writes the text to the start of the output, and returns its length. */
static PyObject *encode_to(const encoding *it, const struct input *input, Py_buffer *output) {
    size_t len = (size_t)output->len;
    size_t needed;
    de_status status;
    if (overlap(input, output, "data")) {
        return NULL;
    }
    status = write_text(it, input, output->buf, &len);
    if (status == DE_SHORT_BUFFER && text_len(it, input->len, &needed) == DE_OK) {
        return PyErr_Format(PyExc_ValueError, "output too short: the text has %zu bytes", needed);
    }
    return status == DE_OK ? PyLong_FromSize_t(len) : refused(status);
}

static PyObject *encode_into(PyObject *self, PyObject *const *arguments, Py_ssize_t count) {
    struct input input;
    Py_buffer output;
    PyObject *len = NULL;
    if (!take_output(&output, "encode_into", arguments, count)) {
        return NULL;
    }
    if (take_data(&input, arguments[0])) {
        len = encode_to(encoding_of(self), &input, &output);
        release(&input);
    }
    PyBuffer_Release(&output);
    return len;
}

/* Cuts the bytes object to the written length. Returns a copy instead, if more than an eighth of
 * its memory would be unused. */
static PyObject *shortened(PyObject *bytes, size_t room, size_t written) {
    char *start = PyBytes_AsString(bytes);
    PyObject *front;
    if (written == room) {
        return bytes;
    }
    if (room - written <= room / 8) {
        /* Nothing else refers to it. The byte after the last one of a bytes object is zero. */
        start[written] = 0;
        Py_SET_SIZE((PyVarObject *)(void *)bytes, (Py_ssize_t)written);
        return bytes;
    }
    front = PyBytes_FromStringAndSize(start, (Py_ssize_t)written);
    Py_DECREF(bytes);
    return front;
}

/* The data that the text means, or as much as comes before its fault, which is the status. No text
 * means more bytes than it has characters. */
static PyObject *decode_input(const encoding *it, const struct input *input, de_status *status,
                              de_decoded *decoded) {
    char small[SMALL];
    size_t most;
    PyObject *data;
    if (input->len <= SMALL) {
        *status = write_data(it, input, small, SMALL, decoded);
        return is_verdict(*status)
                   ? PyBytes_FromStringAndSize(small, (Py_ssize_t)decoded->written)
                   : refused(*status);
    }
    *status = most_data(it, input->len, &most);
    if (*status != DE_OK) {
        decoded->read = 0;
        decoded->position = most;
        return kind_of(*status) == NULL ? refused(*status) : PyBytes_FromStringAndSize(NULL, 0);
    }
    data = PyBytes_FromStringAndSize(NULL, (Py_ssize_t)most);
    if (data == NULL) {
        return NULL;
    }
    *status = write_data(it, input, PyBytes_AsString(data), most, decoded);
    if (!is_verdict(*status)) {
        Py_DECREF(data);
        return refused(*status);
    }
    return shortened(data, most, decoded->written);
}

static PyObject *decode(PyObject *self, PyObject *object) {
    struct input input;
    de_status status;
    de_decoded decoded;
    PyObject *data;
    if (!take_text(&input, object)) {
        return NULL;
    }
    data = decode_input(encoding_of(self), &input, &status, &decoded);
    release(&input);
    if (data != NULL && status != DE_OK) {
        raise_fault(status, decoded.position, data);
        Py_DECREF(data);
        return NULL;
    }
    return data;
}

/* The data, how many characters were read, and the kind and the position of the fault; the kind is
 * None if there is none. */
static PyObject *decode_parts(PyObject *self, PyObject *object) {
    struct input input;
    de_status status;
    de_decoded decoded;
    PyObject *data;
    if (!take_text(&input, object)) {
        return NULL;
    }
    data = decode_input(encoding_of(self), &input, &status, &decoded);
    release(&input);
    if (data == NULL) {
        return NULL;
    }
    return Py_BuildValue("Nnzn", data, (Py_ssize_t)decoded.read, kind_of(status),
                         (Py_ssize_t)decoded.position);
}

/* The data of a text of base64, or None if it is invalid. The encoding is without padding: the text
 * may have more of it at its end than the last group lacks, but not less. */
static PyObject *decode_unpadded(PyObject *self, PyObject *object) {
    struct input input;
    size_t padding = 0;
    de_status status;
    de_decoded decoded;
    PyObject *data;
    if (!take_text(&input, object)) {
        return NULL;
    }
    while (input.len > 0 && memchr("=\r\n", input.start[input.len - 1], 3) != NULL) {
        input.len--;
        padding += input.start[input.len] == '=';
    }
    data = decode_input(encoding_of(self), &input, &status, &decoded);
    release(&input);
    if (data != NULL && (status != DE_OK || padding < (3 - decoded.written % 3) % 3)) {
        Py_DECREF(data);
        Py_RETURN_NONE;
    }
    return data;
}

/* Writes the data to the start of the output, and returns its length. */
static PyObject *decode_to(const encoding *it, const struct input *input, Py_buffer *output) {
    de_status status;
    de_decoded decoded = {0, 0, 0};
    PyObject *data;
    if (overlap(input, output, "text")) {
        return NULL;
    }
    status = most_data(it, input->len, &decoded.position);
    if (status == DE_OK) {
        status = write_data(it, input, output->buf, (size_t)output->len, &decoded);
    }
    if (status == DE_OK) {
        return PyLong_FromSize_t(decoded.written);
    }
    if (status == DE_SHORT_BUFFER) {
        return PyErr_Format(PyExc_ValueError, "output too short: the data has %zu bytes",
                            decoded.written);
    }
    if (kind_of(status) == NULL) {
        return refused(status);
    }
    /* The output may be too short for the data before the fault. */
    data = decode_input(it, input, &status, &decoded);
    if (data != NULL) {
        raise_fault(status, decoded.position, data);
        Py_DECREF(data);
    }
    return NULL;
}

static PyObject *decode_into(PyObject *self, PyObject *const *arguments, Py_ssize_t count) {
    struct input input;
    Py_buffer output;
    PyObject *len = NULL;
    if (!take_output(&output, "decode_into", arguments, count)) {
        return NULL;
    }
    if (take_text(&input, arguments[0])) {
        len = decode_to(encoding_of(self), &input, &output);
        release(&input);
    }
    PyBuffer_Release(&output);
    return len;
}

/* Takes a length of at least 0. */
static bool take_len(PyObject *object, size_t *len) {
    Py_ssize_t given = PyNumber_AsSsize_t(object, NULL);
    if (given == -1 && PyErr_Occurred()) {
        return false;
    }
    if (given < 0) {
        PyErr_SetString(PyExc_ValueError, "a length below 0");
        return false;
    }
    *len = (size_t)given;
    return true;
}

static PyObject *encode_len(PyObject *self, PyObject *object) {
    size_t len;
    de_status status;
    if (!take_len(object, &len)) {
        return NULL;
    }
    status = text_len(encoding_of(self), len, &len);
    return status == DE_OK ? PyLong_FromSize_t(len) : refused(status);
}

static PyObject *decode_len(PyObject *self, PyObject *object) {
    size_t len;
    de_status status;
    PyObject *none;
    if (!take_len(object, &len)) {
        return NULL;
    }
    status = most_data(encoding_of(self), len, &len);
    if (status == DE_OK) {
        return PyLong_FromSize_t(len);
    }
    if (kind_of(status) == NULL) {
        return refused(status);
    }
    none = PyBytes_FromStringAndSize(NULL, 0);
    if (none != NULL) {
        raise_fault(status, len, none);
        Py_DECREF(none);
    }
    return NULL;
}

static PyObject *is_canonical(PyObject *self, PyObject *unused) {
    const encoding *it = encoding_of(self);
    bool canonical = false;
    de_status status = it->is_predefined ? de_is_canonical(it->number, &canonical)
                                         : de_encoding_is_canonical(&it->tables, &canonical);
    (void)unused;
    return status == DE_OK ? PyBool_FromLong(canonical) : refused(status);
}

static PyObject *layout(PyObject *self, PyObject *unused) {
    char output[DE_LAYOUT_LIMIT];
    size_t len;
    de_status status =
        de_encoding_layout(&encoding_of(self)->tables, output, sizeof output, &len);
    (void)unused;
    return status == DE_OK ? PyBytes_FromStringAndSize(output, (Py_ssize_t)len)
                           : refused(status);
}

/* The state of a decoder is a bytes object, as long as a de_decoder. */

static PyObject *bytes_of_decoder(const de_decoder *decoder) {
    return PyBytes_FromStringAndSize((const char *)decoder, sizeof *decoder);
}

static bool take_decoder(de_decoder *decoder, PyObject *kept) {
    if (!PyBytes_Check(kept) || PyBytes_Size(kept) != (Py_ssize_t)sizeof *decoder) {
        refused(DE_NO_DECODER);
        return false;
    }
    memcpy(decoder, PyBytes_AsString(kept), sizeof *decoder);
    return true;
}

static PyObject *new_decoder(PyObject *module, PyObject *unused) {
    de_decoder decoder;
    memset(&decoder, 0, sizeof decoder);
    de_decoder_new(&decoder);
    (void)module;
    (void)unused;
    return bytes_of_decoder(&decoder);
}

/* Returns the held characters of an unfinished group. Refuses a state that the library refuses. */
static PyObject *decoder_held(PyObject *self, PyObject *kept) {
    de_decoder decoder;
    size_t most;
    de_status status;
    if (!take_decoder(&decoder, kept)) {
        return NULL;
    }
    status = most_of_piece(encoding_of(self), &decoder, 0, &most);
    if (status != DE_OK || decoder.count > sizeof decoder.bytes) {
        return refused(status == DE_OK ? DE_NO_DECODER : status);
    }
    return PyBytes_FromStringAndSize((const char *)decoder.bytes, (Py_ssize_t)decoder.count);
}

/* Returns the data of the groups that the piece completes, and the new state. */
static PyObject *read_piece(const encoding *it, de_decoder *decoder, const struct input *input) {
    size_t most;
    size_t written = 0;
    PyObject *data;
    de_status status = most_of_piece(it, decoder, input->len, &most);
    if (status != DE_OK) {
        return refused(status);
    }
    data = PyBytes_FromStringAndSize(NULL, (Py_ssize_t)most);
    if (data == NULL) {
        return NULL;
    }
    status = write_piece(it, decoder, input, PyBytes_AsString(data), most, &written);
    if (status != DE_OK) {
        Py_DECREF(data);
        return refused(status);
    }
    data = shortened(data, most, written);
    return data == NULL ? NULL : Py_BuildValue("NN", data, bytes_of_decoder(decoder));
}

static PyObject *decoder_read(PyObject *self, PyObject *arguments) {
    struct input input;
    de_decoder decoder;
    PyObject *kept;
    PyObject *object;
    PyObject *read = NULL;
    if (!PyArg_ParseTuple(arguments, "OO", &kept, &object) || !take_decoder(&decoder, kept) ||
        !take_text(&input, object)) {
        return NULL;
    }
    read = read_piece(encoding_of(self), &decoder, &input);
    release(&input);
    return read;
}

/* The data of the last group, and the kind and the position of the fault, as in decode_parts. */
static PyObject *decoder_finish(PyObject *self, PyObject *kept) {
    const encoding *it = encoding_of(self);
    char output[8];
    de_decoder decoder;
    de_decoded decoded;
    de_status status;
    if (!take_decoder(&decoder, kept)) {
        return NULL;
    }
    status = it->is_predefined
                 ? de_decoder_finish(it->number, &decoder, output, sizeof output, &decoded)
                 : de_encoding_decoder_finish(&it->tables, &decoder, output, sizeof output,
                                              &decoded);
    if (!is_verdict(status)) {
        return refused(status);
    }
    return Py_BuildValue("y#zn", output, (Py_ssize_t)decoded.written, kind_of(status),
                         (Py_ssize_t)decoded.position);
}

/* The state of an encoder is a bytes object: the bytes of an unfinished block. */

static bool take_encoder(de_encoder *encoder, PyObject *held) {
    Py_ssize_t count = PyBytes_Check(held) ? PyBytes_Size(held) : -1;
    if (count < 0 || (size_t)count > sizeof encoder->bytes) {
        refused(DE_NO_ENCODER);
        return false;
    }
    memset(encoder, 0, sizeof *encoder);
    encoder->count = (size_t)count;
    memcpy(encoder->bytes, PyBytes_AsString(held), encoder->count);
    return true;
}

/* The text of the blocks that the piece completes. */
static PyObject *text_of_blocks(const encoding *it, de_encoder *encoder,
                                const struct input *input) {
    char small[SMALL];
    struct text text;
    size_t len;
    de_status status = text_of_piece(it, encoder, input->len, &len);
    if (status != DE_OK) {
        return refused(status);
    }
    if (len <= SMALL) {
        status = write_blocks(it, encoder, input, small, &len);
        return status == DE_OK ? PyUnicode_DecodeASCII(small, (Py_ssize_t)len, NULL)
                               : refused(status);
    }
    if (!make_room(&text, len)) {
        return NULL;
    }
    status = write_blocks(it, encoder, input, text.output, &len);
    return text_in(&text, len, status);
}

/* That text, and the bytes that are held then. */
static PyObject *read_data(const encoding *it, de_encoder *encoder, const struct input *input) {
    PyObject *text = text_of_blocks(it, encoder, input);
    return text == NULL ? NULL
                        : Py_BuildValue("Ny#", text, (const char *)encoder->bytes,
                                        (Py_ssize_t)encoder->count);
}

/* Refuses a state that the library refuses. */
static PyObject *encoder_read(PyObject *self, PyObject *arguments) {
    struct input input;
    de_encoder encoder;
    PyObject *held;
    PyObject *object;
    PyObject *read;
    if (!PyArg_ParseTuple(arguments, "OO", &held, &object) || !take_encoder(&encoder, held) ||
        !take_data(&input, object)) {
        return NULL;
    }
    read = read_data(encoding_of(self), &encoder, &input);
    release(&input);
    return read;
}

/* The text of the held bytes. */
static PyObject *encoder_finish(PyObject *self, PyObject *held) {
    const encoding *it = encoding_of(self);
    char output[DE_LAST_TEXT_LIMIT];
    de_encoder encoder;
    de_status status;
    size_t len;
    if (!take_encoder(&encoder, held)) {
        return NULL;
    }
    status = it->is_predefined
                 ? de_encoder_finish(it->number, &encoder, output, sizeof output, &len)
                 : de_encoding_encoder_finish(&it->tables, &encoder, output, sizeof output, &len);
    return status == DE_OK ? PyUnicode_DecodeASCII(output, (Py_ssize_t)len, NULL)
                           : refused(status);
}

/* The room for a character that is quoted: '\u{7f}' and the end. */
enum { QUOTED = 9 };

/* Writes the ASCII character between quotes, as Rust writes a `char` for debugging. */
static void quote(char quoted[QUOTED], unsigned char character) {
    static const char escaped[] = "\0\t\n\r'\\";
    static const char letters[] = "0tnr'\\";
    const char *found = memchr(escaped, character, sizeof escaped - 1);
    if (found != NULL) {
        snprintf(quoted, QUOTED, "'\\%c'", letters[found - escaped]);
    } else if (character < ' ' || character == 0x7f) {
        snprintf(quoted, QUOTED, "'\\u{%x}'", (unsigned)character);
    } else {
        snprintf(quoted, QUOTED, "'%c'", character);
    }
}

/* Raises the error of an invalid specification. */
static PyObject *refused_specification(de_status status, size_t detail) {
    char name[QUOTED];
    quote(name, (unsigned char)detail);
    switch (status) {
    case DE_DUPLICATE:
        return PyErr_Format(PyExc_ValueError, "%s has conflicting definitions", name);
    case DE_WRAP_WIDTH:
        return PyErr_Format(PyExc_ValueError, "wrap width not a multiple of %zu", detail);
    case DE_UNDEFINED:
        return PyErr_Format(PyExc_ValueError, "%s is undefined", name);
    default:
        return refused(status);
    }
}

/* A new object of the type, with these tables. */
static PyObject *new_encoding(PyObject *type, const de_encoding *tables, Py_ssize_t number) {
    PyObject *self = PyType_GenericAlloc((PyTypeObject *)(void *)type, 0);
    if (self != NULL) {
        encoding *it = (encoding *)(void *)self;
        it->is_predefined = number >= 0;
        it->number = (de_number)(number >= 0 ? number : 0);
        it->tables = *tables;
    }
    return self;
}

/* Makes an encoding. A number that is not below 0 is the number of the predefined one. */
static PyObject *specified(PyObject *type, PyObject *arguments) {
    de_specification asked = DE_SPECIFICATION;
    de_encoding tables;
    Py_ssize_t symbols, ignore, separator, width, from, to, number;
    int least_significant_first, check_trailing_bits, concatenate;
    size_t detail = 0;
    de_status status;
    if (!PyArg_ParseTuple(arguments, "y#iy#ny#y#y#pppn", &asked.symbols, &symbols, &asked.padding,
                          &asked.ignore, &ignore, &width, &asked.wrap_separator, &separator,
                          &asked.translate_from, &from, &asked.translate_to, &to,
                          &least_significant_first, &check_trailing_bits, &concatenate,
                          &number)) {
        return NULL;
    }
    asked.symbols_len = (size_t)symbols;
    asked.ignore_len = (size_t)ignore;
    asked.wrap_width = (size_t)width;
    asked.wrap_separator_len = (size_t)separator;
    asked.translate_from_len = (size_t)from;
    asked.translate_to_len = (size_t)to;
    asked.least_significant_first = least_significant_first != 0;
    asked.check_trailing_bits = check_trailing_bits != 0;
    asked.concatenate = concatenate != 0;
    status = de_encoding_new(&tables, &asked, &detail);
    return status == DE_OK ? new_encoding(type, &tables, number)
                           : refused_specification(status, detail);
}

static PyObject *of_layout(PyObject *type, PyObject *object) {
    struct input input;
    de_encoding tables;
    de_status status;
    if (!take_data(&input, object)) {
        return NULL;
    }
    status = de_encoding_read(&tables, input.start, input.len);
    release(&input);
    return status == DE_OK ? new_encoding(type, &tables, -1) : refused(status);
}

/* The names of the predefined encodings, in the order of their numbers. */
static PyObject *names(PyObject *module, PyObject *unused) {
    char name[DE_NAME_LIMIT];
    size_t len;
    int number = 0;
    PyObject *list = PyList_New(0);
    (void)module;
    (void)unused;
    while (list != NULL && de_name((de_number)number, name, sizeof name, &len) == DE_OK) {
        PyObject *item = PyUnicode_DecodeASCII(name, (Py_ssize_t)len, NULL);
        if (item == NULL || PyList_Append(list, item) != 0) {
            Py_CLEAR(list);
        }
        Py_XDECREF(item);
        number++;
    }
    return list;
}

/* A method that is given its arguments as an array. */
#define BY_ARRAY(call) (PyCFunction)(void (*)(void))(call), METH_FASTCALL

static PyObject *adopt(PyObject *type, PyObject *unused);

/* Python calls a method only with an object of the type that has it, and a class method only with a
 * type that inherits from Calls. So any other object is refused before it is read. The class
 * methods are the last. */
static PyMethodDef encoding_methods[] = {
    {"encode", encode, METH_O,
     "encode($self, data, /)\n--\n\nReturns the text of `data`. Raises ValueError if it is "
     "too long."},
    {"encode_bytes", encode_bytes, METH_O,
     "encode_bytes($self, data, /)\n--\n\nReturns the text of `data` as bytes."},
    {"encode_into", BY_ARRAY(encode_into),
     "encode_into($self, data, output, /)\n--\n\nWrites the text of `data` to the start of "
     "`output`, and returns its length. Raises ValueError with that length if `output` is shorter, "
     "and leaves it unchanged."},
    {"decode", decode, METH_O,
     "decode($self, text, /)\n--\n\nReturns the data of `text`. Raises DecodeError if the "
     "text is invalid."},
    {"decode_into", BY_ARRAY(decode_into),
     "decode_into($self, text, output, /)\n--\n\nWrites the data of `text` to the start of "
     "`output`, and returns its length. Raises ValueError with that length if `output` is shorter, "
     "and DecodeError if the text is invalid. The contents of `output` are then unspecified."},
    {"encode_len", encode_len, METH_O,
     "encode_len($self, len, /)\n--\n\nReturns the length of the text of `len` bytes."},
    {"decode_len", decode_len, METH_O,
     "decode_len($self, len, /)\n--\n\nReturns the greatest number of bytes that a text of `len` "
     "characters decodes to. Raises DecodeError if no valid text has this length."},
    {"is_canonical", is_canonical, METH_NOARGS,
     "is_canonical($self, /)\n--\n\nReturns True if no two different texts decode to the same "
     "data."},
    {"_decode_parts", decode_parts, METH_O, NULL},
    {"_decode_unpadded", decode_unpadded, METH_O, NULL},
    {"_layout", layout, METH_NOARGS, NULL},
    {"_decoder_held", decoder_held, METH_O, NULL},
    {"_decoder_read", decoder_read, METH_VARARGS, NULL},
    {"_decoder_finish", decoder_finish, METH_O, NULL},
    {"_encoder_read", encoder_read, METH_VARARGS, NULL},
    {"_encoder_finish", encoder_finish, METH_O, NULL},
    {"_adopt", adopt, METH_NOARGS | METH_CLASS, NULL},
    {"_specified", specified, METH_VARARGS | METH_CLASS, NULL},
    {"_of_layout", of_layout, METH_O | METH_CLASS, NULL},
    {NULL, NULL, 0, NULL},
};

/* Python calls a type's own methods sooner than those that it inherits. */
static PyObject *adopt(PyObject *type, PyObject *unused) {
    PyMethodDef *method = encoding_methods;
    bool adopted = true;
    (void)unused;
    for (; adopted && (method->ml_flags & METH_CLASS) == 0; method++) {
        PyObject *own = PyDescr_NewMethod((PyTypeObject *)(void *)type, method);
        adopted = own != NULL && PyObject_SetAttrString(type, method->ml_name, own) == 0;
        Py_XDECREF(own);
    }
    if (!adopted) {
        return NULL;
    }
    Py_RETURN_NONE;
}

static PyType_Slot encoding_slots[] = {
    {Py_tp_methods, encoding_methods},
    {0, NULL},
};

/* Before Python 3.10 `add_calls` has the effect of this flag. */
#ifndef Py_TPFLAGS_DISALLOW_INSTANTIATION
#define Py_TPFLAGS_DISALLOW_INSTANTIATION 0
#define REMOVES_NEW
#endif

static PyType_Spec encoding_spec = {
    .name = "data_encoding._native.Calls",
    .basicsize = sizeof(encoding),
    .flags = Py_TPFLAGS_DEFAULT | Py_TPFLAGS_BASETYPE | Py_TPFLAGS_DISALLOW_INSTANTIATION,
    .slots = encoding_slots,
};

static PyMethodDef functions[] = {
    {"names", names, METH_NOARGS, NULL},
    {"new_decoder", new_decoder, METH_NOARGS, NULL},
    {NULL, NULL, 0, NULL},
};

/* Each interpreter has a type of its own. */
static int add_calls(PyObject *module) {
    PyObject *type = PyType_FromModuleAndSpec(module, &encoding_spec, NULL);
    int added;
    if (type == NULL) {
        return -1;
    }
#ifdef REMOVES_NEW
    ((PyTypeObject *)(void *)type)->tp_new = NULL;
#endif
    added = PyModule_AddType(module, (PyTypeObject *)(void *)type);
    Py_DECREF(type);
    return added == 0 ? PyModule_AddStringConstant(module, "version", de_version()) : -1;
}

/* Py_mod_multiple_interpreters and Py_MOD_PER_INTERPRETER_GIL_SUPPORTED of Python 3.12, which older
 * ones don't know: the module may be in interpreters that run at the same time. */
#define MULTIPLE_INTERPRETERS 3
#define WITH_A_LOCK_EACH ((void *)2)

static PyModuleDef_Slot slots[] = {
    {Py_mod_exec, (void *)(uintptr_t)add_calls},
    {MULTIPLE_INTERPRETERS, WITH_A_LOCK_EACH},
    {0, NULL},
};

static PyModuleDef_Slot slots_before_3_12[] = {
    {Py_mod_exec, (void *)(uintptr_t)add_calls},
    {0, NULL},
};

static struct PyModuleDef definition = {
    PyModuleDef_HEAD_INIT, "data_encoding._native", NULL, 0, functions, slots, NULL, NULL, NULL,
};

static struct PyModuleDef definition_before_3_12 = {
    PyModuleDef_HEAD_INIT, "data_encoding._native", NULL, 0, functions, slots_before_3_12, NULL,
    NULL, NULL,
};

/* Returns the version of the running Python, which may be newer than its header. */
static unsigned long running_version(void) {
#if PY_VERSION_HEX >= 0x030B0000
    return Py_Version;
#else
    return PY_VERSION_HEX;
#endif
}

/* Returns true if the processor has the instructions of the library's calls. */
static bool is_supported(void) {
#ifdef __x86_64__
    return __builtin_cpu_supports("ssse3") && __builtin_cpu_supports("sse4.2") &&
           __builtin_cpu_supports("popcnt");
#else
    return true;
#endif
}

PyMODINIT_FUNC PyInit__native(void) {
    if (!is_supported()) {
        PyErr_SetString(PyExc_ImportError, "data_encoding needs an x86-64-v2 processor");
        return NULL;
    }
    return PyModuleDef_Init(running_version() >= 0x030C0000 ? &definition
                                                            : &definition_before_3_12);
}
