// FFmpeg's reader: opened with a cookie, then a packet at a time into interleaved samples.
#include <libavcodec/avcodec.h>
#include <stdlib.h>
#include <string.h>

typedef struct {
  AVCodecContext *context;
  AVPacket *packet;
  AVFrame *frame;
} Reader;

void ffmpeg_close(Reader *r) {
  av_frame_free(&r->frame);
  av_packet_free(&r->packet);
  avcodec_free_context(&r->context);
  free(r);
}

// NULL where FFmpeg refuses the cookie.
Reader *ffmpeg_open(const uint8_t *cookie) {
  static const uint8_t atom[12] = {0, 0, 0, 36, 'a', 'l', 'a', 'c', 0, 0, 0, 0};
  av_log_set_level(AV_LOG_QUIET);
  Reader *r = malloc(sizeof *r);
  *r = (Reader){avcodec_alloc_context3(avcodec_find_decoder(AV_CODEC_ID_ALAC)), av_packet_alloc(), av_frame_alloc()};
  r->context->extradata = av_mallocz(36 + AV_INPUT_BUFFER_PADDING_SIZE);
  r->context->extradata_size = 36;
  r->context->thread_count = 1;
  memcpy(r->context->extradata, atom, 12);
  memcpy(r->context->extradata + 12, cookie, 24);
  if (avcodec_open2(r->context, NULL, NULL) == 0) return r;
  ffmpeg_close(r);
  return NULL;
}

// The samples of each channel, or -1.
int ffmpeg_read(Reader *r, const uint8_t *bytes, size_t length, int16_t *out, size_t places) {
  int channels = r->context->ch_layout.nb_channels, samples = -1;
  if (av_new_packet(r->packet, (int)length) != 0) return -1;
  memcpy(r->packet->data, bytes, length);
  if (avcodec_send_packet(r->context, r->packet) == 0 && avcodec_receive_frame(r->context, r->frame) == 0
      && r->frame->format == AV_SAMPLE_FMT_S16P && (size_t)r->frame->nb_samples * channels <= places) {
    samples = r->frame->nb_samples;
    for (int c = 0; c < channels; c++) {
      const int16_t *plane = (const int16_t *)r->frame->extended_data[c];
      for (int i = 0; i < samples; i++) out[i * channels + c] = plane[i];
    }
  }
  av_packet_unref(r->packet);
  return samples;
}
