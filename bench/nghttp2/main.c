// A plain server of one HTTP/2 connection on standard input and output, over libnghttp2: it answers each AppendRowsRequest
// by the offset that it names, and keeps its bytes; no row is decoded. A call of another method gets an empty reply.
#include <nghttp2/nghttp2.h>
#include <stdint.h>
#include <stdio.h>
#include <stdlib.h>
#include <string.h>
#include <unistd.h>

enum { PIECE = 65536, PREFIX = 5 };

struct bytes {
  uint8_t *at;
  size_t len, room;
};

// A call: the message that comes, behind its prefix of five bytes, and the replies that go.
struct call {
  int is_append, has_head, has_ended;
  uint8_t prefix[PREFIX];
  size_t prefix_len;
  struct bytes message, replies;
  size_t written;
};

static void fail(const char *what) {
  fprintf(stderr, "nghttp2: %s\n", what);
  exit(1);
}

static void add(struct bytes *bytes, const void *from, size_t len) {
  if (bytes->len + len > bytes->room) {
    bytes->room = 2 * (bytes->len + len);
    bytes->at = realloc(bytes->at, bytes->room);
    if (!bytes->at) fail("no memory");
  }
  memcpy(bytes->at + bytes->len, from, len);
  bytes->len += len;
}

// ---- messages

static size_t put_varint(uint8_t *out, uint64_t n) {
  size_t len = 0;
  for (; n >= 128; n >>= 7) out[len++] = (uint8_t)(n & 127) | 128;
  out[len++] = (uint8_t)n;
  return len;
}

static uint64_t take_varint(const uint8_t **at, const uint8_t *end) {
  uint64_t n = 0;
  for (int shift = 0; *at < end && shift < 64; shift += 7) {
    uint8_t byte = *(*at)++;
    n |= (uint64_t)(byte & 127) << shift;
    if (byte < 128) return n;
  }
  fail("no varint");
  return 0;
}

// The offset of an AppendRowsRequest, write_stream 1, offset 2 {value 1}, proto_rows 4; and the write stream.
static uint64_t read_request(const struct bytes *message, const uint8_t **stream, size_t *stream_len) {
  const uint8_t *at = message->at, *end = at + message->len;
  uint64_t offset = 0;
  *stream_len = 0;
  while (at < end) {
    uint64_t tag = take_varint(&at, end), len = take_varint(&at, end);
    const uint8_t *value = at;
    if (tag % 8 != 2 || len > (uint64_t)(end - at)) fail("no such message");
    at += len;
    if (tag == 1 * 8 + 2) *stream = value, *stream_len = (size_t)len;
    if (tag == 2 * 8 + 2 && len) value++, offset = take_varint(&value, at);
  }
  return offset;
}

// An AppendRowsResponse: append_result 1 {offset 1 {value 1}}, write_stream 5.
static void reply(struct call *call) {
  const uint8_t *stream = NULL;
  size_t stream_len = 0, len = PREFIX;
  uint8_t out[PREFIX + 32] = {0};
  if (call->is_append) {
    uint8_t value[16], value_len = 0;
    uint64_t offset = read_request(&call->message, &stream, &stream_len);
    if (offset) value[0] = 8, value_len = (uint8_t)(1 + put_varint(value + 1, offset));
    out[len++] = 1 * 8 + 2, out[len++] = value_len + 2;
    out[len++] = 1 * 8 + 2, out[len++] = value_len;
    memcpy(out + len, value, value_len), len += value_len;
    if (stream_len) out[len++] = 5 * 8 + 2, len += put_varint(out + len, stream_len);
  }
  uint32_t whole = (uint32_t)(len - PREFIX + stream_len);
  for (int i = 0; i < 4; i++) out[1 + i] = (uint8_t)(whole >> (24 - 8 * i));
  add(&call->replies, out, len);
  if (stream_len) add(&call->replies, stream, stream_len);
}

// ---- calls

static ssize_t read_replies(nghttp2_session *session, int32_t id, uint8_t *out, size_t room, uint32_t *flags,
                            nghttp2_data_source *source, void *user) {
  struct call *call = source->ptr;
  size_t left = call->replies.len - call->written, len = left < room ? left : room;
  (void)user;
  memcpy(out, call->replies.at + call->written, len);
  call->written += len;
  if (call->written < call->replies.len) return (ssize_t)len;
  call->written = call->replies.len = 0;
  if (call->has_ended) {
    nghttp2_nv status = {(uint8_t *)"grpc-status", (uint8_t *)"0", 11, 1, NGHTTP2_NV_FLAG_NONE};
    *flags |= NGHTTP2_DATA_FLAG_EOF | NGHTTP2_DATA_FLAG_NO_END_STREAM;
    if (nghttp2_submit_trailer(session, id, &status, 1)) fail("no trailers");
    return (ssize_t)len;
  }
  return len ? (ssize_t)len : NGHTTP2_ERR_DEFERRED;
}

static void go_on(nghttp2_session *session, int32_t id, struct call *call) {
  if (call->has_head) {
    nghttp2_session_resume_data(session, id);
    return;
  }
  nghttp2_nv head[] = {
      {(uint8_t *)":status", (uint8_t *)"200", 7, 3, NGHTTP2_NV_FLAG_NONE},
      {(uint8_t *)"content-type", (uint8_t *)"application/grpc", 12, 16, NGHTTP2_NV_FLAG_NONE},
  };
  nghttp2_data_provider provider = {.source = {.ptr = call}, .read_callback = read_replies};
  if (nghttp2_submit_response(session, id, head, 2, &provider)) fail("no head");
  call->has_head = 1;
}

static int headers_begin(nghttp2_session *session, const nghttp2_frame *frame, void *user) {
  struct call *call = calloc(1, sizeof *call);
  (void)user;
  if (!call) fail("no memory");
  nghttp2_session_set_stream_user_data(session, frame->hd.stream_id, call);
  return 0;
}

static int field_came(nghttp2_session *session, const nghttp2_frame *frame, const uint8_t *name, size_t name_len,
                      const uint8_t *value, size_t len, uint8_t flags, void *user) {
  static const char METHOD[] = "/AppendRows";
  struct call *call = nghttp2_session_get_stream_user_data(session, frame->hd.stream_id);
  size_t method = sizeof METHOD - 1;
  (void)flags, (void)user;
  if (name_len == 5 && !memcmp(name, ":path", 5))
    call->is_append = len > method && !memcmp(value + len - method, METHOD, method);
  return 0;
}

static uint32_t length_of(const struct call *call) {
  uint32_t len = 0;
  for (int i = 1; i < PREFIX; i++) len = len << 8 | call->prefix[i];
  return len;
}

// Whole messages are kept: what holds one is not used again.
static int data_came(nghttp2_session *session, uint8_t flags, int32_t id, const uint8_t *data, size_t len, void *user) {
  struct call *call = nghttp2_session_get_stream_user_data(session, id);
  (void)flags, (void)user;
  while (len) {
    if (call->prefix_len < PREFIX) {
      call->prefix[call->prefix_len++] = *data++, len--;
      if (call->prefix_len < PREFIX) continue;
      call->message = (struct bytes){.at = malloc(length_of(call) + 1), .room = length_of(call) + 1};
      if (!call->message.at) fail("no memory");
    }
    size_t missing = length_of(call) - call->message.len, taken = missing < len ? missing : len;
    add(&call->message, data, taken);
    data += taken, len -= taken;
    if (taken < missing) break;
    reply(call);
    call->prefix_len = 0;
    go_on(session, id, call);
  }
  return 0;
}

static int frame_came(nghttp2_session *session, const nghttp2_frame *frame, void *user) {
  (void)user;
  if (frame->hd.type == NGHTTP2_DATA && frame->hd.flags & NGHTTP2_FLAG_END_STREAM) {
    struct call *call = nghttp2_session_get_stream_user_data(session, frame->hd.stream_id);
    call->has_ended = 1;
    go_on(session, frame->hd.stream_id, call);
  }
  return 0;
}

// ---- the connection

static void write_all(nghttp2_session *session, struct bytes *out) {
  const uint8_t *octets;
  ssize_t len;
  out->len = 0;
  while ((len = nghttp2_session_mem_send(session, &octets)) > 0) add(out, octets, (size_t)len);
  if (len < 0) fail("nothing to send");
  for (size_t done = 0; done < out->len;) {
    ssize_t taken = write(1, out->at + done, out->len - done);
    if (taken <= 0) fail("output failed");
    done += (size_t)taken;
  }
}

int main(void) {
  static uint8_t piece[PIECE];
  struct bytes out = {0};
  nghttp2_session_callbacks *calls;
  nghttp2_session *session;
  if (nghttp2_session_callbacks_new(&calls)) fail("no memory");
  nghttp2_session_callbacks_set_on_begin_headers_callback(calls, headers_begin);
  nghttp2_session_callbacks_set_on_header_callback(calls, field_came);
  nghttp2_session_callbacks_set_on_data_chunk_recv_callback(calls, data_came);
  nghttp2_session_callbacks_set_on_frame_recv_callback(calls, frame_came);
  if (nghttp2_session_server_new(&session, calls, NULL)) fail("no memory");
  nghttp2_session_callbacks_del(calls);
  nghttp2_submit_settings(session, NGHTTP2_FLAG_NONE, NULL, 0);
  ssize_t len;
  while ((len = read(0, piece, PIECE)) > 0) {
    if (nghttp2_session_mem_recv(session, piece, (size_t)len) != len) fail("input refused");
    write_all(session, &out);
  }
  nghttp2_session_del(session);
  return len < 0;
}
