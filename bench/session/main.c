// Plays one connection of a server in turn with the crate h2_conn and with libnghttp2, and prints the processor time of
// each run. Words: a file of the client's first octets, `come` or `go`, a size and a number.
#include <nghttp2/nghttp2.h>
#include <stdint.h>
#include <stdio.h>
#include <stdlib.h>
#include <string.h>
#include <time.h>

enum { RUNS = 5, MOST = 65536, HEADER = 9 };

uint64_t frames_come(const uint8_t *begin, size_t begin_len, const uint8_t *frame, size_t frame_len, uint32_t times);
uint64_t replies_go(const uint8_t *begin, size_t begin_len, const uint8_t *reply, size_t reply_len, uint32_t times);

// What a callback of a session knows: the data that came, which a server keeps, and the reply that goes next.
struct state {
  uint8_t kept[MOST];
  uint64_t told;
  const uint8_t *reply;
  size_t left;
};

static int data_came(nghttp2_session *session, uint8_t flags, int32_t stream, const uint8_t *data, size_t len, void *user) {
  struct state *state = user;
  (void)session, (void)flags, (void)stream;
  memcpy(state->kept, data, len);
  state->told += len;
  return 0;
}

static ssize_t read_reply(nghttp2_session *session, int32_t stream, uint8_t *out, size_t room, uint32_t *flags,
                          nghttp2_data_source *source, void *user) {
  struct state *state = user;
  (void)session, (void)stream, (void)flags, (void)source;
  if (!state->left) return NGHTTP2_ERR_DEFERRED;
  size_t len = state->left < room ? state->left : room;
  memcpy(out, state->reply, len);
  state->reply += len;
  state->left -= len;
  return (ssize_t)len;
}

static void receive(nghttp2_session *session, const uint8_t *octets, size_t len) {
  if (nghttp2_session_mem_recv(session, octets, len) != (ssize_t)len) exit(1);
}

// What is due goes into memory of its own, as with h2_conn.
static uint64_t write_all(nghttp2_session *session) {
  static uint8_t out[MOST];
  uint64_t written = 0;
  for (;;) {
    const uint8_t *octets;
    ssize_t len = nghttp2_session_mem_send(session, &octets);
    if (len < 0) exit(1);
    if (!len) return written;
    memcpy(out, octets, (size_t)len);
    written += (uint64_t)len;
  }
}

static nghttp2_session *begun(struct state *state, const uint8_t *begin, size_t len) {
  nghttp2_session_callbacks *calls;
  nghttp2_session *session;
  if (nghttp2_session_callbacks_new(&calls)) exit(1);
  nghttp2_session_callbacks_set_on_data_chunk_recv_callback(calls, data_came);
  if (nghttp2_session_server_new(&session, calls, state)) exit(1);
  nghttp2_session_callbacks_del(calls);
  nghttp2_submit_settings(session, NGHTTP2_FLAG_NONE, NULL, 0);
  receive(session, begin, len);
  write_all(session);
  return session;
}

static uint64_t peer_come(const uint8_t *begin, size_t begin_len, const uint8_t *frame, size_t len, uint32_t times) {
  static struct state state;
  state.told = 0;
  nghttp2_session *session = begun(&state, begin, begin_len);
  for (uint32_t i = 0; i < times; i++) {
    receive(session, frame, len);
    write_all(session);
  }
  nghttp2_session_del(session);
  return state.told;
}

static uint64_t peer_go(const uint8_t *begin, size_t begin_len, const uint8_t *reply, size_t len, uint32_t times) {
  static struct state state;
  state.left = 0;
  nghttp2_session *session = begun(&state, begin, begin_len);
  nghttp2_data_provider provider = {.read_callback = read_reply};
  nghttp2_nv status = {(uint8_t *)":status", (uint8_t *)"200", 7, 3, NGHTTP2_NV_FLAG_NONE};
  if (nghttp2_submit_response(session, 1, &status, 1, &provider)) exit(1);
  write_all(session);
  uint64_t written = 0;
  for (uint32_t i = 0; i < times; i++) {
    state.reply = reply;
    state.left = len;
    nghttp2_session_resume_data(session, 1);
    written += write_all(session);
  }
  nghttp2_session_del(session);
  return written;
}

static double seconds(void) {
  struct timespec now;
  clock_gettime(CLOCK_PROCESS_CPUTIME_ID, &now);
  return (double)now.tv_sec + (double)now.tv_nsec / 1e9;
}

int main(int argc, char **argv) {
  static uint8_t begin[MOST], frame[MOST];
  if (argc != 5) return 2;
  FILE *file = fopen(argv[1], "rb");
  if (!file) return 1;
  size_t begin_len = fread(begin, 1, MOST, file);
  fclose(file);
  size_t size = (size_t)atol(argv[3]);
  uint32_t times = (uint32_t)atol(argv[4]);
  if (size > MOST - HEADER) return 2;
  frame[0] = 0, frame[1] = (uint8_t)(size >> 8), frame[2] = (uint8_t)size;
  frame[8] = 1;
  memset(frame + HEADER, 7, size);
  int comes = !strcmp(argv[2], "come");
  for (int run = 0; run < RUNS; run++) {
    double start = seconds();
    uint64_t ours = comes ? frames_come(begin, begin_len, frame, HEADER + size, times)
                          : replies_go(begin, begin_len, frame + HEADER, size, times);
    double middle = seconds();
    uint64_t theirs = comes ? peer_come(begin, begin_len, frame, HEADER + size, times)
                            : peer_go(begin, begin_len, frame + HEADER, size, times);
    double end = seconds();
    uint64_t wanted = (uint64_t)times * (comes ? size : size + HEADER);
    if (ours != wanted || theirs != wanted) {
      fprintf(stderr, "%llu %llu %llu\n", (unsigned long long)ours, (unsigned long long)theirs, (unsigned long long)wanted);
      return 1;
    }
    printf("%f %f\n", middle - start, end - middle);
  }
}
