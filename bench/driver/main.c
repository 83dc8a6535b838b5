// A load driver for a server of the read and write services on this machine, over libnghttp2. PID is the server's.
//
//     driver PORT PID append TABLE ROWS BATCH SIZE CONNECTIONS
//     driver PORT PID get TABLE CALLS
//     driver PORT PID read TABLE ROWS SIZE TIMES STREAMS RESTRICTION COLUMNS DUE
//
// `append` opens its connections at once, a thread for each. Connection i makes a COMMITTED stream of the table whose name
// is TABLE and the digit i, with the columns id:INT64:REQUIRED,tag:STRING, and appends its share of the rows, each of SIZE
// bytes, BATCH in a message, with offsets. At most 32 messages are unanswered, and each response must hold its offset. It
// prints seconds: of the whole, of the server's processor time and of its own.
//
// `get` asks for the default stream of table 0, one call after another. It prints microseconds: of the median call, of the
// 99th of a hundred, and of the server's processor time for a call.
//
// `read` appends the rows in messages of 1,000, in each with the ids 0 to 999, as the first connection of `append` would.
// Then it makes a session of so many read streams over what the restriction keeps, with the columns that are named and
// parted by commas, or with all, and reads its streams at once, each in a call of its own on the same connection, with the
// widest windows; so often, one session after another. The rows of each must be DUE. It prints seconds: of the whole, of
// the server's processor time and of its own; then by how many kilobytes the server's resident memory was at its peak above
// that before the first session; and the bytes of the rows of one session.
//
// Where a call fails or a response isn't the one that is due, the status is 1.
#define _GNU_SOURCE
#include <arpa/inet.h>
#include <errno.h>
#include <netinet/tcp.h>
#include <nghttp2/nghttp2.h>
#include <poll.h>
#include <pthread.h>
#include <stdint.h>
#include <stdio.h>
#include <stdlib.h>
#include <string.h>
#include <sys/socket.h>
#include <time.h>
#include <unistd.h>

enum { PIECE = 65536, PREFIX = 5, UNANSWERED = 32, MOST_CONNECTIONS = 8, WARM_UP = 100, SECONDS = 300 };
enum { READ_BATCH = 1000, MOST_STREAMS = 100, MOST_TIMES = 1000 };
enum { WINDOW = 0x7fffffff, FIRST_WINDOW = 65535 };
#define SERVICE "/google.cloud.bigquery.storage.v1.BigQueryWrite/"
#define READ_SERVICE "/google.cloud.bigquery.storage.v1.BigQueryRead/"

struct bytes {
  uint8_t *at;
  size_t len, room;
};

// The appends of one call: what is asked, and how far it is. The first message names the stream and the rows' type.
struct appends {
  uint64_t messages, batch;
  struct bytes first, rest;
  uint64_t begun, answered;
  uint8_t head[PREFIX + 16];
  size_t head_len, sent;
};

// The rows that came in read calls, and their bytes.
struct rows {
  uint64_t count, bytes;
};

// A call: the messages that it sends, one or many, and the bytes that came and aren't read. An append call has appends, and
// a read call rows.
struct call {
  struct appends *appends;
  struct rows *rows;
  struct bytes request, response;
  size_t sent;
  int is_deferred, is_good, has_ended;
};

struct link {
  int fd;
  nghttp2_session *session;
  struct bytes out;
  size_t written;
};

// A field of a message: a number, or so many bytes.
struct field {
  unsigned number;
  uint64_t value;
  const uint8_t *at;
};

static struct sockaddr_in server;
static int process;
static const char *table;

static void fail(const char *what) {
  fprintf(stderr, "driver: %s\n", what);
  exit(1);
}

static double seconds_of(clockid_t clock) {
  struct timespec time;
  if (clock_gettime(clock, &time)) fail("no clock");
  return (double)time.tv_sec + (double)time.tv_nsec / 1e9;
}

// ---- messages

static void add(struct bytes *bytes, const void *from, size_t len) {
  if (bytes->len + len > bytes->room) {
    bytes->room = 2 * (bytes->len + len);
    bytes->at = realloc(bytes->at, bytes->room);
    if (!bytes->at) fail("no memory");
  }
  if (len) memcpy(bytes->at + bytes->len, from, len);
  bytes->len += len;
}

static size_t put_varint(uint8_t *out, uint64_t n) {
  size_t len = 0;
  for (; n >= 128; n >>= 7) out[len++] = (uint8_t)(n & 127) | 128;
  out[len++] = (uint8_t)n;
  return len;
}

static uint64_t take_varint(const uint8_t **at, const uint8_t *end) {
  uint64_t n = 0;
  for (int shift = 0; *at < end && shift < 64; shift += 7) {
    uint8_t byte = *(*at)++;
    n |= (uint64_t)(byte & 127) << shift;
    if (byte < 128) return n;
  }
  fail("a response can't be read");
  return 0;
}

// The next field of a message that isn't at its end.
static struct field take_field(const uint8_t **at, const uint8_t *end) {
  uint64_t tag = take_varint(at, end);
  struct field field = {.number = (unsigned)(tag >> 3), .value = take_varint(at, end), .at = *at};
  if ((tag & 7) != 0 && ((tag & 7) != 2 || field.value > (uint64_t)(end - *at))) fail("a response can't be read");
  if ((tag & 7) == 2) *at += field.value;
  return field;
}

static void put_number(struct bytes *out, unsigned field, uint64_t n) {
  uint8_t head[16] = {(uint8_t)(field * 8)};
  add(out, head, 1 + put_varint(head + 1, n));
}

static void put_payload(struct bytes *out, unsigned field, const void *from, size_t len) {
  uint8_t head[16] = {(uint8_t)(field * 8 + 2)};
  add(out, head, 1 + put_varint(head + 1, len));
  add(out, from, len);
}

static void put_text(struct bytes *out, unsigned field, const char *text) {
  put_payload(out, field, text, strlen(text));
}

static void put_prefix(uint8_t *out, size_t len) {
  out[0] = 0;
  for (int i = 0; i < 4; i++) out[1 + i] = (uint8_t)(len >> (24 - 8 * i));
}

static struct bytes framed(struct bytes message) {
  struct bytes out = {0};
  uint8_t prefix[PREFIX];
  put_prefix(prefix, message.len);
  add(&out, prefix, PREFIX);
  add(&out, message.at, message.len);
  free(message.at);
  return out;
}

// The rows of a message, each of so many bytes: id 1 and tag 2.
static struct bytes rows_of(uint64_t batch, size_t size) {
  struct bytes rows = {0}, row = {0};
  char *text = malloc(size);
  if (!text) fail("no memory");
  memset(text, 'x', size);
  for (uint64_t id = 0; id < batch; id++) {
    row.len = 0;
    put_number(&row, 1, id);
    size_t left = size - row.len - 1;
    put_payload(&row, 2, text, left - (left > 128 ? 2 : 1));
    put_payload(&rows, 1, row.at, row.len);
  }
  free(text), free(row.at);
  return rows;
}

// A FieldDescriptorProto: name 1, number 3, label 4 and type 5, of which 3 is INT64 and 9 STRING.
static void put_field(struct bytes *out, const char *name, unsigned number, unsigned type) {
  struct bytes field = {0};
  put_text(&field, 1, name);
  put_number(&field, 3, number), put_number(&field, 4, 1), put_number(&field, 5, type);
  put_payload(out, 2, field.at, field.len);
  free(field.at);
}

// An AppendRowsRequest: write_stream 1, offset 2, proto_rows 4 {writer_schema 1 {proto_descriptor 1}, rows 2}.
static void make_messages(struct appends *appends, const struct bytes *stream, size_t size) {
  struct bytes descriptor = {0}, schema = {0}, rows = rows_of(appends->batch, size), data = {0};
  put_payload(&descriptor, 1, "Row", 3);
  put_field(&descriptor, "id", 1, 3);
  put_field(&descriptor, "tag", 2, 9);
  put_payload(&schema, 1, descriptor.at, descriptor.len);
  put_payload(&data, 2, rows.at, rows.len);
  put_payload(&appends->rest, 4, data.at, data.len);
  put_payload(&data, 1, schema.at, schema.len);
  put_payload(&appends->first, 1, stream->at, stream->len);
  put_payload(&appends->first, 4, data.at, data.len);
  free(descriptor.at), free(schema.at), free(rows.at), free(data.at);
}

// ---- what a call sends

static const struct bytes *body_of(const struct appends *appends) {
  return appends->begun == 1 ? &appends->first : &appends->rest;
}

// The prefix of the next message and its offset field, which the first leaves out.
static void begin_message(struct appends *appends) {
  uint8_t *field = appends->head + PREFIX;
  size_t len = 0;
  if (appends->begun) {
    size_t number = put_varint(field + 3, appends->begun * appends->batch);
    field[0] = 2 * 8 + 2, field[1] = (uint8_t)(number + 1), field[2] = 1 * 8;
    len = number + 3;
  }
  appends->begun++;
  put_prefix(appends->head, len + body_of(appends)->len);
  appends->head_len = PREFIX + len;
  appends->sent = 0;
}

// More of the message that is begun, or of the next: each message has frames of its own. None where 32 are unanswered.
static size_t read_message(struct appends *appends, uint8_t *out, size_t room) {
  int is_sent = !appends->begun || appends->sent == appends->head_len + body_of(appends)->len;
  if (is_sent && (appends->begun == appends->messages || appends->begun - appends->answered == UNANSWERED)) return 0;
  if (is_sent) begin_message(appends);
  const struct bytes *body = body_of(appends);
  int is_head = appends->sent < appends->head_len;
  size_t at = is_head ? appends->sent : appends->sent - appends->head_len;
  size_t left = (is_head ? appends->head_len : body->len) - at, len = left < room ? left : room;
  memcpy(out, (is_head ? appends->head : body->at) + at, len);
  appends->sent += len;
  if (!is_head || len == room) return len;
  size_t more = body->len < room - len ? body->len : room - len;
  memcpy(out + len, body->at, more);
  appends->sent += more;
  return len + more;
}

static int has_sent_all(const struct appends *appends) {
  return appends->begun == appends->messages && appends->sent == appends->head_len + body_of(appends)->len;
}

static ssize_t read_request(nghttp2_session *session, int32_t id, uint8_t *out, size_t room, uint32_t *flags,
                            nghttp2_data_source *source, void *user) {
  struct call *call = source->ptr;
  (void)session, (void)id, (void)user;
  if (call->appends) {
    size_t len = read_message(call->appends, out, room);
    if (has_sent_all(call->appends)) *flags |= NGHTTP2_DATA_FLAG_EOF;
    call->is_deferred = !len;
    return len ? (ssize_t)len : NGHTTP2_ERR_DEFERRED;
  }
  size_t left = call->request.len - call->sent, len = left < room ? left : room;
  memcpy(out, call->request.at + call->sent, len);
  call->sent += len;
  if (call->sent == call->request.len) *flags |= NGHTTP2_DATA_FLAG_EOF;
  return (ssize_t)len;
}

// ---- what a call gets

// An AppendRowsResponse must begin with append_result 1 {offset 1 {value 1}}, the value being left out where it is 0.
static void check_response(struct appends *appends, const uint8_t *at, size_t len) {
  const uint8_t *end = at + len;
  uint64_t offset = 0;
  if (len < 4 || at[0] != 1 * 8 + 2 || at[2] != 1 * 8 + 2) fail("an append was refused");
  at += 4;
  if (at[-1]) {
    if (at == end || *at++ != 1 * 8) fail("an append got another response");
    offset = take_varint(&at, end);
  }
  if (offset != appends->answered * appends->batch) fail("an append was put at another offset");
  appends->answered++;
}

// A ReadRowsResponse: avro_rows 3 {serialized_binary_rows 1}, row_count 6.
static void count_rows(struct rows *rows, const uint8_t *at, size_t len) {
  for (const uint8_t *end = at + len; at < end;) {
    struct field field = take_field(&at, end);
    if (field.number == 6) rows->count += field.value;
    if (field.number == 3) rows->bytes += take_field(&field.at, at).value;
  }
}

// Takes the whole messages that came.
static void take_responses(struct call *call) {
  size_t done = 0;
  while (call->response.len - done >= PREFIX) {
    const uint8_t *at = call->response.at + done;
    size_t len = (size_t)at[1] << 24 | (size_t)at[2] << 16 | (size_t)at[3] << 8 | at[4];
    if (call->response.len - done - PREFIX < len) break;
    if (call->appends) check_response(call->appends, at + PREFIX, len);
    else count_rows(call->rows, at + PREFIX, len);
    done += PREFIX + len;
  }
  if (!done) return;
  call->response.len -= done;
  memmove(call->response.at, call->response.at + done, call->response.len);
}

static int data_came(nghttp2_session *session, uint8_t flags, int32_t id, const uint8_t *data, size_t len, void *user) {
  struct call *call = nghttp2_session_get_stream_user_data(session, id);
  (void)flags, (void)user;
  add(&call->response, data, len);
  if (!call->appends && !call->rows) return 0;
  take_responses(call);
  if (call->is_deferred) call->is_deferred = 0, nghttp2_session_resume_data(session, id);
  return 0;
}

static int field_came(nghttp2_session *session, const nghttp2_frame *frame, const uint8_t *name, size_t name_len,
                      const uint8_t *value, size_t len, uint8_t flags, void *user) {
  struct call *call = nghttp2_session_get_stream_user_data(session, frame->hd.stream_id);
  (void)flags, (void)user;
  if (name_len == 11 && !memcmp(name, "grpc-status", 11)) call->is_good = len == 1 && *value == '0';
  return 0;
}

static int stream_closed(nghttp2_session *session, int32_t id, uint32_t error, void *user) {
  struct call *call = nghttp2_session_get_stream_user_data(session, id);
  (void)error, (void)user;
  call->has_ended = 1;
  return 0;
}

// ---- connections

static struct link connected(void) {
  struct link link = {.fd = socket(AF_INET, SOCK_STREAM, 0)};
  int on = 1;
  nghttp2_session_callbacks *calls;
  if (link.fd < 0 || connect(link.fd, (struct sockaddr *)&server, sizeof server)) fail("no connection");
  setsockopt(link.fd, IPPROTO_TCP, TCP_NODELAY, &on, sizeof on);
  if (nghttp2_session_callbacks_new(&calls)) fail("no memory");
  nghttp2_session_callbacks_set_on_header_callback(calls, field_came);
  nghttp2_session_callbacks_set_on_data_chunk_recv_callback(calls, data_came);
  nghttp2_session_callbacks_set_on_stream_close_callback(calls, stream_closed);
  if (nghttp2_session_client_new(&link.session, calls, NULL)) fail("no memory");
  nghttp2_session_callbacks_del(calls);
  nghttp2_settings_entry window = {NGHTTP2_SETTINGS_INITIAL_WINDOW_SIZE, WINDOW};
  nghttp2_submit_settings(link.session, NGHTTP2_FLAG_NONE, &window, 1);
  nghttp2_submit_window_update(link.session, NGHTTP2_FLAG_NONE, 0, WINDOW - FIRST_WINDOW);
  return link;
}

static void disconnect(struct link *link) {
  close(link->fd);
  nghttp2_session_del(link->session);
  free(link->out.at);
}

// Gathers about 64 KB of frames, and hands the system what it takes of them.
static void write_frames(struct link *link) {
  const uint8_t *octets;
  ssize_t len = 0;
  if (link->written == link->out.len) link->written = link->out.len = 0;
  while (link->out.len < PIECE && (len = nghttp2_session_mem_send(link->session, &octets)) > 0)
    add(&link->out, octets, (size_t)len);
  if (len < 0) fail("no frame can be sent");
  if (link->written == link->out.len) return;
  len = send(link->fd, link->out.at + link->written, link->out.len - link->written, MSG_DONTWAIT | MSG_NOSIGNAL);
  if (len < 0 && errno != EAGAIN) fail("the connection was lost");
  if (len > 0) link->written += (size_t)len;
}

// Writes what may be written, and reads once there is something.
static void go_on(struct link *link) {
  uint8_t piece[PIECE];
  write_frames(link);
  int is_writing = link->written < link->out.len || nghttp2_session_want_write(link->session);
  struct pollfd wait = {.fd = link->fd, .events = POLLIN | (is_writing ? POLLOUT : 0)};
  if (poll(&wait, 1, -1) < 0) fail("no wait");
  if (!(wait.revents & ~POLLOUT)) return;
  ssize_t len = recv(link->fd, piece, PIECE, MSG_DONTWAIT);
  if (len < 0 && errno == EAGAIN) return;
  if (len <= 0) fail("the connection was closed");
  if (nghttp2_session_mem_recv(link->session, piece, (size_t)len) != len) fail("frames can't be read");
}

#define FIELD(name, value) {(uint8_t *)name, (uint8_t *)value, sizeof name - 1, strlen(value), NGHTTP2_NV_FLAG_NONE}

static void begin(struct link *link, const char *path, struct call *call) {
  nghttp2_nv fields[] = {
      FIELD(":method", "POST"), FIELD(":scheme", "http"), FIELD(":path", path), FIELD(":authority", "localhost"),
      FIELD("content-type", "application/grpc"), FIELD("te", "trailers"),
  };
  nghttp2_data_provider provider = {.source = {.ptr = call}, .read_callback = read_request};
  if (nghttp2_submit_request(link->session, NULL, fields, 6, &provider, call) < 0) fail("no call");
}

// Waits for the end of a call, which must be good.
static void finish(struct link *link, struct call *call) {
  while (!call->has_ended) go_on(link);
  if (!call->is_good) fail("a call ended with an error");
}

static void play(struct link *link, const char *path, struct call *call) {
  begin(link, path, call);
  finish(link, call);
}

// ---- the loads

struct load {
  pthread_t thread;
  int number;
  uint64_t messages, batch;
  size_t size;
};

// A CreateWriteStreamRequest: parent 1, write_stream 2 {type 2}, of which 1 is COMMITTED. The response has the name first.
static struct bytes created(struct link *link, int number) {
  struct bytes message = {0}, stream = {0}, parent = {0}, name = {0};
  char digit = (char)('0' + number);
  add(&parent, table, strlen(table)), add(&parent, &digit, 1);
  put_number(&stream, 2, 1);
  put_payload(&message, 1, parent.at, parent.len);
  put_payload(&message, 2, stream.at, stream.len);
  struct call call = {.request = framed(message)};
  play(link, SERVICE "CreateWriteStream", &call);
  const uint8_t *at = call.response.at + PREFIX + 1, *end = call.response.at + call.response.len;
  uint64_t len = take_varint(&at, end);
  if (len > (uint64_t)(end - at)) fail("a response can't be read");
  add(&name, at, len);
  free(stream.at), free(parent.at), free(call.request.at), free(call.response.at);
  return name;
}

static void append_on(struct link *link, const struct load *load) {
  struct bytes name = created(link, load->number);
  struct appends appends = {.messages = load->messages, .batch = load->batch};
  struct call call = {.appends = &appends};
  make_messages(&appends, &name, load->size);
  play(link, SERVICE "AppendRows", &call);
  if (appends.answered != appends.messages) fail("an append got no response");
  free(name.at), free(appends.first.at), free(appends.rest.at), free(call.response.at);
}

static void *append_all(void *from) {
  struct link link = connected();
  append_on(&link, from);
  disconnect(&link);
  return NULL;
}

static void append(clockid_t clock, uint64_t rows, uint64_t batch, size_t size, int connections) {
  struct load loads[MOST_CONNECTIONS];
  double start = seconds_of(CLOCK_MONOTONIC), theirs = seconds_of(clock), own = seconds_of(CLOCK_PROCESS_CPUTIME_ID);
  for (int i = 0; i < connections; i++) {
    loads[i] = (struct load){.number = i, .messages = rows / batch / (uint64_t)connections, .batch = batch, .size = size};
    if (pthread_create(&loads[i].thread, NULL, append_all, &loads[i])) fail("no thread");
  }
  for (int i = 0; i < connections; i++) pthread_join(loads[i].thread, NULL);
  printf("%.6f %.6f %.6f\n", seconds_of(CLOCK_MONOTONIC) - start, seconds_of(clock) - theirs,
         seconds_of(CLOCK_PROCESS_CPUTIME_ID) - own);
}

static int by_size(const void *a, const void *b) {
  double x = *(const double *)a, y = *(const double *)b;
  return (x > y) - (x < y);
}

// A GetWriteStreamRequest: name 1.
static void get(clockid_t clock, size_t calls) {
  double *times = malloc(calls * sizeof *times), theirs = 0;
  struct link link = connected();
  struct bytes name = {0}, message = {0};
  if (!times) fail("no memory");
  add(&name, table, strlen(table)), add(&name, "0/streams/_default", 18);
  put_payload(&message, 1, name.at, name.len);
  struct bytes request = framed(message);
  for (size_t i = 0; i < WARM_UP + calls; i++) {
    struct call call = {.request = request};
    if (i == WARM_UP) theirs = seconds_of(clock);
    double start = seconds_of(CLOCK_MONOTONIC);
    play(&link, SERVICE "GetWriteStream", &call);
    if (i >= WARM_UP) times[i - WARM_UP] = seconds_of(CLOCK_MONOTONIC) - start;
    free(call.response.at);
  }
  theirs = seconds_of(clock) - theirs;
  disconnect(&link);
  qsort(times, calls, sizeof *times, by_size);
  printf("%.3f %.3f %.3f\n", 1e6 * times[calls / 2], 1e6 * times[calls * 99 / 100], 1e6 * theirs / (double)calls);
  free(times), free(name.at), free(request.at);
}

// Kilobytes of the server's memory: "VmRSS:" are resident now, and "VmHWM:" were at the peak.
static double kilobytes(const char *which) {
  char line[256];
  snprintf(line, sizeof line, "/proc/%d/status", process);
  FILE *file = fopen(line, "r");
  double found = -1;
  while (file && fgets(line, sizeof line, file))
    if (!strncmp(line, which, strlen(which))) found = atof(line + strlen(which));
  if (found < 0 || fclose(file)) fail("the server's memory isn't known");
  return found;
}

static void forget_peak(void) {
  char path[64];
  snprintf(path, sizeof path, "/proc/%d/clear_refs", process);
  FILE *file = fopen(path, "w");
  if (!file || fputs("5", file) < 0 || fclose(file)) fail("the server's peak of memory can't be forgotten");
}

// A CreateReadSessionRequest: parent 1, read_session 2 {data_format 3, of which 1 is AVRO, table 6, read_options 8
// {selected_fields 1, row_restriction 2}}, max_stream_count 3. The parent of a table's session is its project.
static struct bytes session_request(int streams, const char *restriction, const char *columns) {
  struct bytes message = {0}, session = {0}, options = {0}, name = {0};
  const char *slash = strchr(table, '/'), *project_end = slash ? strchr(slash + 1, '/') : NULL;
  if (!project_end) fail("TABLE isn't a table's name");
  while (*columns) {
    size_t len = strcspn(columns, ",");
    put_payload(&options, 1, columns, len);
    columns += len + (columns[len] == ',');
  }
  put_text(&options, 2, restriction);
  add(&name, table, strlen(table)), add(&name, "0", 1);
  put_number(&session, 3, 1);
  put_payload(&session, 6, name.at, name.len);
  put_payload(&session, 8, options.at, options.len);
  put_payload(&message, 1, table, (size_t)(project_end - table));
  put_payload(&message, 2, session.at, session.len);
  put_number(&message, 3, (uint64_t)streams);
  free(name.at), free(session.at), free(options.at);
  return framed(message);
}

// The ReadRowsRequests of a session that is made for this, one for each of its streams: read_stream 1. The response has
// streams 10 {name 1}.
static void open_session(struct link *link, struct bytes request, struct call *calls, int streams) {
  struct call call = {.request = request};
  int found = 0;
  play(link, READ_SERVICE "CreateReadSession", &call);
  const uint8_t *at = call.response.at + PREFIX, *end = call.response.at + call.response.len;
  while (at < end) {
    struct field stream = take_field(&at, end);
    if (stream.number != 10) continue;
    struct field name = take_field(&stream.at, at);
    struct bytes message = {0};
    if (found == streams) fail("a session has other streams");
    put_payload(&message, 1, name.at, name.value);
    calls[found++].request = framed(message);
  }
  if (found != streams) fail("a session has other streams");
  free(call.response.at);
}

// What is to be read, and how often.
struct reads {
  struct bytes request;
  int streams, times;
  uint64_t due;
};

// The bytes of the rows of a session.
static uint64_t read_all(struct link *link, const struct reads *reads) {
  struct call calls[MOST_STREAMS] = {0};
  struct rows rows = {0};
  open_session(link, reads->request, calls, reads->streams);
  for (int i = 0; i < reads->streams; i++) {
    calls[i].rows = &rows;
    begin(link, READ_SERVICE "ReadRows", &calls[i]);
  }
  for (int i = 0; i < reads->streams; i++) {
    finish(link, &calls[i]);
    if (calls[i].response.len) fail("a response isn't whole");
    free(calls[i].request.at), free(calls[i].response.at);
  }
  if (rows.count != reads->due) fail("other rows came than are due");
  return rows.bytes;
}

static void read_table(clockid_t clock, const struct load *load, const struct reads *reads) {
  struct link link = connected();
  uint64_t bytes = 0;
  append_on(&link, load);
  forget_peak();
  double before = kilobytes("VmRSS:");
  double start = seconds_of(CLOCK_MONOTONIC), theirs = seconds_of(clock), own = seconds_of(CLOCK_PROCESS_CPUTIME_ID);
  for (int i = 0; i < reads->times; i++) bytes = read_all(&link, reads);
  double whole = seconds_of(CLOCK_MONOTONIC) - start;
  theirs = seconds_of(clock) - theirs, own = seconds_of(CLOCK_PROCESS_CPUTIME_ID) - own;
  printf("%.6f %.6f %.6f %.0f %llu\n", whole, theirs, own, kilobytes("VmHWM:") - before, (unsigned long long)bytes);
  disconnect(&link);
}

static uint64_t number(const char *word) {
  return strtoull(word, NULL, 10);
}

static int between(const char *word, int most, const char *what) {
  int given = atoi(word);
  if (given < 1 || given > most) fail(what);
  return given;
}

int main(int words, char **word) {
  clockid_t clock;
  const char *load = words > 4 ? word[3] : "";
  int is_append = words == 9 && !strcmp(load, "append"), is_get = words == 6 && !strcmp(load, "get");
  int is_read = words == 12 && !strcmp(load, "read");
  if (!is_append && !is_get && !is_read)
    fail("PORT PID append TABLE ROWS BATCH SIZE CONNECTIONS, PORT PID get TABLE CALLS, or"
         " PORT PID read TABLE ROWS SIZE TIMES STREAMS RESTRICTION COLUMNS DUE");
  server.sin_family = AF_INET;
  server.sin_port = htons((uint16_t)atoi(word[1]));
  server.sin_addr.s_addr = htonl(INADDR_LOOPBACK);
  process = atoi(word[2]);
  table = word[4];
  if (clock_getcpuclockid(process, &clock)) fail("no such process");
  alarm(SECONDS);
  if (is_append) {
    int connections = between(word[8], MOST_CONNECTIONS, "1 to 8 connections");
    append(clock, number(word[5]), number(word[6]), number(word[7]), connections);
  } else if (is_get) {
    get(clock, number(word[5]));
  } else {
    int times = between(word[7], MOST_TIMES, "1 to 1,000 times");
    int streams = between(word[8], MOST_STREAMS, "1 to 100 streams");
    struct load rows = {.messages = number(word[5]) / READ_BATCH, .batch = READ_BATCH, .size = number(word[6])};
    if (!rows.messages) fail("1,000 rows or more");
    struct reads reads = {session_request(streams, word[9], word[10]), streams, times, number(word[11])};
    read_table(clock, &rows, &reads);
    free(reads.request.at);
  }
  return 0;
}
