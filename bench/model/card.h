/* The eight-channel encoder and SSI counter card as a plain C model: state and calls. */
#ifndef CARD_H
#define CARD_H

#include <stdbool.h>
#include <stdint.h>

enum { CARD_CHANNELS = 8 };

enum card_code {
    CARD_OK = 0,
    CARD_BAD_OFFSET = 1,  /* offset not a multiple of 4, or above 0x1FC */
    CARD_UNSUPPORTED = 2, /* write that asks for a mode the card does not have */
};

/* Debounce filters that share one period: bit i of each byte belongs to line i. */
struct debounce {
    uint64_t period; /* ticks between samples, at least 1 */
    uint64_t phase;  /* ticks since the last sample or restart, below period */
    uint8_t newer;   /* last sample */
    uint8_t older;   /* sample before it */
    uint8_t level;   /* filtered level */
};

enum counter_input {
    INPUT_NONE,
    INPUT_TIMER_UP,
    INPUT_TIMER_DOWN,
    INPUT_DIRECTION,
    INPUT_UP_DOWN,
    INPUT_QUADRATURE_1X,
    INPUT_QUADRATURE_2X,
    INPUT_QUADRATURE_4X,
};

enum index_mode { INDEX_IGNORE, INDEX_LOAD, INDEX_LATCH, INDEX_GATE, INDEX_RESET };

enum count_mode { COUNT_CYCLING, COUNT_DIVIDE_BY_N, COUNT_SINGLE_CYCLE, COUNT_CYCLING_TOO };

struct counter {
    uint32_t control; /* Counter Mode Control as it reads; the next five fields are decoded from it */
    enum counter_input input;
    enum index_mode index;
    enum count_mode mode;
    uint8_t polarity;      /* bit 0 A, bit 1 B, bit 2 I */
    uint32_t clock_period; /* ticks between timer steps */
    uint32_t divider;      /* ticks since the divider restarted or last stepped */
    uint32_t count;
    uint32_t latched;
    uint32_t preload;
    uint32_t compare;
    uint32_t status; /* Counter Mode Status as it reads */
};

enum ssi_phase { SSI_WAITING, SSI_CLOCKING, SSI_RECOVERING };

/* Settings a transmission takes when its request is accepted. */
struct ssi_settings {
    uint32_t half_period; /* ticks between clock toggles */
    uint8_t data_bits;
    uint8_t extra_bits;
    uint8_t parity; /* PAR */
    bool odd;
    bool gray;
};

struct ssi {
    uint32_t control; /* SSI Mode Control as it reads */
    enum ssi_phase phase;
    struct ssi_settings taken;
    uint32_t wait;      /* ticks until the next toggle, the completion or the end of recovery */
    uint32_t toggle;    /* number of the next toggle, the fall at the start being 0 */
    uint64_t frame;     /* bits received so far, the last one lowest */
    bool clock;         /* level of the clock line */
    bool low_at_start;  /* the data level was 0 when the clock first fell */
    bool while_busy;
    uint32_t completed; /* ZB STATUS, FAULT, PARITY STATUS and PRY in their places */
    uint32_t word;      /* last completed word */
};

enum channel_mode { MODE_OFF = 0, MODE_SSI = 1, MODE_COUNTER = 2, MODE_OFF_TOO = 3 };

struct snapshot {
    bool enabled;
    bool collecting;
    bool unread;
    uint32_t word;
};

struct channel {
    enum channel_mode mode;
    struct debounce lines; /* bit 0 IO0 (A), bit 1 IN1 (B, SSI data), bit 2 IN2 (I) */
    uint32_t debouncing;
    struct counter counter;
    struct ssi ssi;
    struct snapshot snapshot;
};

struct interval_timer {
    uint32_t control; /* ITTB and ITEN */
    uint32_t preload;
    uint32_t left;    /* base periods left */
    uint32_t elapsed; /* ticks of the running base period */
};

struct card {
    struct channel channel[CARD_CHANNELS];
    struct interval_timer timer;
    bool test_enable;
    bool snapshot_by_timer;
    bool snapshot_overflow;
    uint8_t test_out;
    struct debounce inputs;    /* bit k is the 24 V input of channel k; the period is for those with ADE */
    uint32_t input_debouncing; /* ADE bits, base and time */
    uint8_t output_enable;
    uint8_t outputs;
    uint32_t interrupt_enable;
    uint32_t interrupt_pending;
    uint32_t edge_enable;
    uint32_t edge_pending;
    uint32_t scratchpad;
};

/* What a tick answers: bit k belongs to channel k. */
struct card_levels {
    uint8_t clocks;
    uint8_t outputs;
};

/* Whether an offset names a register, reserved ones included. */
bool card_has_offset(uint32_t offset);

void card_power_on(struct card *card);
struct card_levels card_tick(struct card *card, uint32_t lines, uint32_t inputs);

/* A refused call leaves the card as it was, and a refused read leaves *value. */
enum card_code card_read(struct card *card, uint32_t offset, uint32_t *value);
enum card_code card_write(struct card *card, uint32_t offset, uint32_t value);

#endif
