/* The card: filters, counters, SSI controllers, snapshot, timer, interrupts and the register map. */
#include "card.h"

#include <string.h>

enum { LINE_A = 1, LINE_B = 2, LINE_I = 4, LINE_DATA = LINE_B };

/* Interrupt causes of a channel: match or data valid (VCM), control mode or fault (FCM). */
enum { CAUSE_VCM = 1, CAUSE_FCM = 2 };

/* Counter Mode Status */
enum {
    STATUS_BOR = 1u << 0,
    STATUS_CRY = 1u << 1,
    STATUS_MAT = 1u << 2,
    STATUS_SGN = 1u << 3,
    STATUS_DIR = 1u << 4,
    STATUS_DRL = 1u << 5,
    STATUS_OVFL = 1u << 6,
    STATUS_SGL = 1u << 7,
    STATUS_CLEARABLE = STATUS_BOR | STATUS_CRY | STATUS_MAT | STATUS_DRL | STATUS_OVFL,
};

/* SSI Mode Status */
enum {
    SSI_BSY = 1u << 0,
    SSI_PRY = 1u << 1,
    SSI_PARITY = 1u << 2,
    SSI_FAULT = 1u << 3,
    SSI_EXTRA_SHIFT = 4,
    SSI_SENSOR = 1u << 15,
    SSI_WHILE_BUSY = 1u << 16,
};

enum { COMPLETION_TICKS = 500, RECOVERY_TICKS = 3100 };

enum { START_COMMAND = 0, START_TIMER = 1 };

enum { COMMAND_RCNT = 1, COMMAND_LCNT = 2 };

/* Global Command above the LCNT bits */
enum { GLOBAL_TRIGGER = 1u << 8, GLOBAL_CLEAR = 1u << 9 };

enum { TIMER_ENABLE = 1 };

enum { INTERRUPT_FCM_SHIFT = 8, INTERRUPT_TIMER = 1u << 20, INTERRUPT_EDGE = 1u << 21 };
static const uint32_t INTERRUPT_ACK_BY_READ = 1u << 31;

/* Writable bits */
static const uint32_t MASK_COUNTER_CONTROL = 0x00003FFF;
static const uint32_t MASK_DEBOUNCING = 0x0003FFFF;
static const uint32_t MASK_INPUT_DEBOUNCING = 0xFF03FFFF;
static const uint32_t MASK_INTERRUPT_ENABLE = 0x8010FFFF;

static uint32_t field(uint32_t word, unsigned low, unsigned width)
{
    return word >> low & ((1u << width) - 1);
}

/* ---- debounce filters ---- */

static uint64_t debounce_period(uint32_t debouncing)
{
    static const uint32_t base[4] = {3, 10, 100, 100000};
    uint32_t time = field(debouncing, 0, 16);

    return time == 0 ? 1 : (uint64_t)time * base[field(debouncing, 16, 2)];
}

static void debounce_restart(struct debounce *filter, uint64_t period)
{
    filter->period = period;
    filter->phase = 0;
}

/* True in each tick in which a sample is due. */
static bool debounce_due(struct debounce *filter)
{
    if (++filter->phase < filter->period)
        return false;
    filter->phase = 0;
    return true;
}

/* Takes a sample of the lines named in mask; three equal samples in a row become the level. */
static void debounce_sample(struct debounce *filter, uint8_t lines, uint8_t mask)
{
    uint8_t settled = ~(lines ^ filter->newer) & ~(lines ^ filter->older) & mask;

    filter->level = (filter->level & ~settled) | (lines & settled);
    filter->older = (filter->older & ~mask) | (filter->newer & mask);
    filter->newer = (filter->newer & ~mask) | (lines & mask);
}

/* ---- counter ---- */

static void counter_set_control(struct counter *counter, uint32_t value)
{
    static const uint32_t period[8] = {100, 50, 25, 20, 10, 5, 2, 1};

    counter->control = value & MASK_COUNTER_CONTROL;
    counter->input = field(value, 0, 3);
    counter->clock_period = period[field(value, 3, 3)];
    counter->mode = field(value, 6, 2);
    counter->index = field(value, 8, 3);
    counter->polarity = field(value, 11, 3);
}

static void counter_control_write(struct counter *counter, uint32_t value)
{
    counter_set_control(counter, value);
    counter->divider = 0;
    counter->status &= ~STATUS_SGL;
    if (counter->index != INDEX_LATCH)
        counter->status &= ~STATUS_DRL;
}

/* The divider runs in every tick of Counter Mode; true when it comes round. */
static bool counter_divide(struct counter *counter)
{
    if (++counter->divider < counter->clock_period)
        return false;
    counter->divider = 0;
    return true;
}

/* Step the inputs ask for: +1, -1 or 0. Levels have gone through polarity. */
static int counter_step(const struct counter *counter, bool clock, uint8_t before, uint8_t after)
{
    uint8_t change = (before ^ after) & (LINE_A | LINE_B);
    bool a = after & LINE_A;
    bool b = after & LINE_B;
    bool a_rises = a && (change & LINE_A);
    bool b_rises = b && (change & LINE_B);

    switch (counter->input) {
    case INPUT_NONE:
        return 0;
    case INPUT_TIMER_UP:
        return clock ? 1 : 0;
    case INPUT_TIMER_DOWN:
        return clock ? -1 : 0;
    case INPUT_DIRECTION:
        return !a_rises ? 0 : b ? 1 : -1;
    case INPUT_UP_DOWN:
        return a_rises - b_rises;
    case INPUT_QUADRATURE_1X:
        return change != LINE_A || b ? 0 : a ? 1 : -1;
    case INPUT_QUADRATURE_2X:
        return change != LINE_A ? 0 : a != b ? 1 : -1;
    case INPUT_QUADRATURE_4X:
        if (change == LINE_A)
            return a != b ? 1 : -1;
        if (change == LINE_B)
            return a == b ? 1 : -1;
        return 0;
    }
    return 0;
}

static unsigned counter_match(struct counter *counter)
{
    if (counter->count != counter->compare)
        return 0;
    counter->status |= STATUS_MAT;
    return CAUSE_VCM;
}

static unsigned counter_load(struct counter *counter, uint32_t value)
{
    counter->count = value;
    if (counter->mode == COUNT_SINGLE_CYCLE)
        counter->status |= STATUS_SGL;
    return counter_match(counter);
}

static void counter_set_direction(struct counter *counter, bool up)
{
    if (up)
        counter->status |= STATUS_DIR;
    else
        counter->status &= ~STATUS_DIR;
}

/* Makes a step other than 0, unless Single Cycle forbids it. */
static unsigned counter_make_step(struct counter *counter, int step)
{
    bool wraps = counter->count == (step > 0 ? UINT32_MAX : 0);

    if (counter->mode == COUNT_SINGLE_CYCLE) {
        if (wraps)
            counter->status &= ~STATUS_SGL;
        if (!(counter->status & STATUS_SGL))
            return 0;
    }
    counter_set_direction(counter, step > 0);
    if (wraps && step > 0)
        counter->status |= STATUS_CRY | STATUS_SGN;
    if (wraps && step < 0)
        counter->status = (counter->status | STATUS_BOR) & ~STATUS_SGN;
    if (wraps && counter->mode == COUNT_DIVIDE_BY_N)
        counter->count = counter->preload;
    else
        counter->count += (uint32_t)step;
    return counter_match(counter);
}

/* An event of Latch on I. */
static unsigned counter_latch(struct counter *counter)
{
    if (counter->status & STATUS_DRL) {
        counter->status |= STATUS_OVFL;
        return 0;
    }
    counter->latched = counter->count;
    counter->status |= STATUS_DRL;
    return CAUSE_FCM;
}

static unsigned counter_tick(struct counter *counter, uint8_t before, uint8_t after)
{
    before ^= counter->polarity;
    after ^= counter->polarity;

    bool clock = counter_divide(counter);
    bool event = after & ~before & LINE_I;
    int step = counter_step(counter, clock, before, after);
    unsigned causes = 0;

    if (counter->input == INPUT_DIRECTION)
        counter_set_direction(counter, after & LINE_B);
    if (event && counter->index == INDEX_LOAD)
        return CAUSE_FCM | counter_load(counter, counter->preload);
    if (event && counter->index == INDEX_RESET)
        return CAUSE_FCM | counter_load(counter, 0);
    if (counter->index == INDEX_GATE && !(after & LINE_I)) {
        step = 0;
        if (before & LINE_I)
            causes |= CAUSE_FCM;
    }
    if (step != 0)
        causes |= counter_make_step(counter, step);
    if (event && counter->index == INDEX_LATCH)
        causes |= counter_latch(counter);
    return causes;
}

/* LCNT and RCNT in Counter Mode. */
static unsigned counter_command(struct counter *counter, uint32_t command)
{
    unsigned causes = 0;

    if (command & COMMAND_LCNT)
        causes = counter_load(counter, counter->preload);
    else if (command & COMMAND_RCNT)
        causes = counter_load(counter, 0);
    if (command & COMMAND_RCNT)
        counter->status &= ~STATUS_DRL;
    return causes;
}

/* ---- SSI controller ---- */

static uint32_t ssi_start(const struct ssi *ssi)
{
    return field(ssi->control, 25, 2);
}

static bool ssi_busy(const struct ssi *ssi)
{
    return ssi->phase == SSI_CLOCKING;
}

static unsigned ssi_frame_bits(const struct ssi_settings *settings)
{
    return settings->data_bits + settings->extra_bits + (settings->parity != 0 ? 1u : 0u);
}

/* A request for a transmission; the clock first falls `delay` ticks of the controller later. */
static void ssi_request(struct ssi *ssi, uint32_t delay)
{
    uint32_t rate = field(ssi->control, 0, 12);

    if (ssi->phase != SSI_WAITING) {
        ssi->while_busy = true;
        return;
    }
    if (rate == 0)
        return;
    ssi->while_busy = false;
    ssi->taken.half_period = 50000 / rate;
    ssi->taken.data_bits = field(ssi->control, 12, 5) + 1;
    ssi->taken.extra_bits = field(ssi->control, 17, 3);
    ssi->taken.parity = field(ssi->control, 20, 2);
    ssi->taken.odd = field(ssi->control, 22, 1);
    ssi->taken.gray = field(ssi->control, 23, 1);
    ssi->phase = SSI_CLOCKING;
    ssi->wait = delay;
    ssi->toggle = 0;
    ssi->frame = 0;
}

/* Leaving SSI mode. */
static void ssi_drop(struct ssi *ssi)
{
    ssi->phase = SSI_WAITING;
    ssi->clock = true;
}

static uint32_t gray_to_binary(uint32_t gray)
{
    for (unsigned shift = 16; shift > 0; shift /= 2)
        gray ^= gray >> shift;
    return gray;
}

static unsigned ssi_complete(struct ssi *ssi, bool level)
{
    const struct ssi_settings *taken = &ssi->taken;
    uint64_t rest = ssi->frame;
    bool parity_bit = false;
    bool fault = ssi->low_at_start || level;

    if (taken->parity != 0) {
        parity_bit = rest & 1;
        rest >>= 1;
    }
    uint32_t extra = (uint32_t)rest & ((1u << taken->extra_bits) - 1);
    uint32_t data = (uint32_t)(rest >> taken->extra_bits);
    unsigned ones = parity_bit;

    if (taken->parity & 1)
        ones += (unsigned)__builtin_popcount(data);
    if (taken->parity & 2)
        ones += (unsigned)__builtin_popcount(extra);

    ssi->word = taken->gray ? gray_to_binary(data) : data;
    ssi->completed = extra << SSI_EXTRA_SHIFT;
    if (fault)
        ssi->completed |= SSI_FAULT;
    if (parity_bit)
        ssi->completed |= SSI_PARITY;
    if (taken->parity != 0 && (ones & 1) != (taken->odd ? 1u : 0u))
        ssi->completed |= SSI_PRY;
    return fault ? CAUSE_VCM | CAUSE_FCM : CAUSE_VCM;
}

/* A tick of a clocking controller in which something is due: a toggle or the completion. */
static unsigned ssi_clocking_due(struct ssi *ssi, bool level)
{
    unsigned last_rise = 2 * ssi_frame_bits(&ssi->taken) + 1;

    if (ssi->toggle > last_rise) {
        ssi->phase = SSI_RECOVERING;
        ssi->wait = RECOVERY_TICKS - COMPLETION_TICKS;
        return ssi_complete(ssi, level);
    }
    ssi->clock = ssi->toggle & 1;
    if (ssi->toggle == 0)
        ssi->low_at_start = !level;
    else if (!ssi->clock)
        ssi->frame = ssi->frame << 1 | (level ? 1 : 0);
    ssi->wait = ssi->toggle == last_rise ? COMPLETION_TICKS : ssi->taken.half_period;
    ssi->toggle++;
    return 0;
}

static unsigned ssi_tick(struct ssi *ssi, bool level)
{
    if (ssi->phase == SSI_WAITING || --ssi->wait > 0)
        return 0;
    if (ssi->phase == SSI_CLOCKING)
        return ssi_clocking_due(ssi, level);
    ssi->phase = SSI_WAITING;
    return 0;
}

static uint32_t ssi_status(const struct ssi *ssi)
{
    uint32_t status = ssi->completed;

    if (ssi_busy(ssi))
        status |= SSI_BSY;
    if (ssi->phase != SSI_WAITING)
        status |= SSI_SENSOR;
    if (ssi->while_busy)
        status |= SSI_WHILE_BUSY;
    return status;
}

/* ---- interrupts ---- */

static void raise_causes(struct card *card, unsigned k, unsigned causes)
{
    uint32_t bits = 0;

    if (causes & CAUSE_VCM)
        bits |= 1u << k;
    if (causes & CAUSE_FCM)
        bits |= 1u << (k + INTERRUPT_FCM_SHIFT);
    card->interrupt_pending |= bits & card->interrupt_enable;
}

/* ---- snapshot ---- */

static uint32_t snapshot_status(const struct card *card)
{
    bool collecting = false;
    bool unread = false;

    for (unsigned k = 0; k < CARD_CHANNELS; k++) {
        collecting = collecting || card->channel[k].snapshot.collecting;
        unread = unread || card->channel[k].snapshot.unread;
    }
    return card->snapshot_overflow ? 3 : collecting ? 1 : unread ? 2 : 0;
}

static void snapshot_clear_channel(struct snapshot *snapshot)
{
    snapshot->collecting = false;
    snapshot->unread = false;
    snapshot->word = 0;
}

static void snapshot_clear(struct card *card)
{
    card->snapshot_overflow = false;
    for (unsigned k = 0; k < CARD_CHANNELS; k++)
        snapshot_clear_channel(&card->channel[k].snapshot);
}

static void snapshot_channel(struct channel *channel)
{
    struct snapshot *snapshot = &channel->snapshot;

    snapshot->unread = true;
    snapshot->collecting = false;
    switch (channel->mode) {
    case MODE_OFF:
    case MODE_OFF_TOO:
        snapshot->word = 0;
        break;
    case MODE_COUNTER:
        snapshot->word = channel->counter.count;
        break;
    case MODE_SSI:
        if (ssi_start(&channel->ssi) == START_COMMAND) {
            ssi_request(&channel->ssi, 1);
            snapshot->collecting = ssi_busy(&channel->ssi);
        }
        if (!snapshot->collecting)
            snapshot->word = channel->ssi.word;
        break;
    }
}

static void snapshot_trigger(struct card *card)
{
    if (snapshot_status(card) != 0)
        card->snapshot_overflow = true;
    for (unsigned k = 0; k < CARD_CHANNELS; k++)
        if (card->channel[k].snapshot.enabled)
            snapshot_channel(&card->channel[k]);
}

static void snapshot_collect(struct snapshot *snapshot, uint32_t word)
{
    if (!snapshot->collecting)
        return;
    snapshot->collecting = false;
    snapshot->word = word;
}

/* ---- interval timer ---- */

static uint32_t timer_base(const struct interval_timer *timer)
{
    static const uint32_t base[4] = {10, 100, 100000, 100000000};

    return base[field(timer->control, 1, 2)];
}

/* True in a tick in which the timer expires. */
static bool timer_tick(struct interval_timer *timer)
{
    if (!(timer->control & TIMER_ENABLE) || ++timer->elapsed < timer_base(timer))
        return false;
    timer->elapsed = 0;
    if (timer->left == 0 || --timer->left > 0)
        return false;
    timer->left = timer->preload;
    return true;
}

static void timer_control_write(struct interval_timer *timer, uint32_t value)
{
    uint32_t former = timer->control;

    timer->control = field(value, 0, 3);
    if ((timer->control & TIMER_ENABLE) && timer->control != former) {
        timer->left = timer->preload;
        timer->elapsed = 0;
    }
}

/* ---- tick ---- */

static void tick_inputs(struct card *card, uint8_t inputs)
{
    uint8_t before = card->inputs.level;
    uint8_t debounced = field(card->input_debouncing, 24, 8);

    debounce_sample(&card->inputs, inputs, debounce_due(&card->inputs) ? 0xFF : (uint8_t)~debounced);

    uint8_t after = card->inputs.level;
    uint32_t rises = after & ~before;
    uint32_t falls = before & ~after;

    card->edge_pending |= (falls << 8 | rises) & card->edge_enable;
}

static void tick_channel(struct card *card, unsigned k, uint8_t lines, bool expired)
{
    struct channel *channel = &card->channel[k];
    uint8_t before = channel->lines.level;
    unsigned causes;

    if (debounce_due(&channel->lines))
        debounce_sample(&channel->lines, lines, 0xFF);
    switch (channel->mode) {
    case MODE_OFF:
    case MODE_OFF_TOO:
        break;
    case MODE_COUNTER:
        causes = counter_tick(&channel->counter, before, channel->lines.level);
        if (causes != 0)
            raise_causes(card, k, causes);
        break;
    case MODE_SSI:
        /* The controller's own part of this tick follows, so the clock falls in its second tick. */
        if (expired && ssi_start(&channel->ssi) == START_TIMER)
            ssi_request(&channel->ssi, 2);
        causes = ssi_tick(&channel->ssi, channel->lines.level & LINE_DATA);
        if (causes != 0) {
            snapshot_collect(&channel->snapshot, channel->ssi.word);
            raise_causes(card, k, causes);
        }
        break;
    }
}

static uint8_t output_levels(const struct card *card)
{
    uint8_t mask = (card->output_enable & 1 ? 0x0F : 0) | (card->output_enable & 2 ? 0xF0 : 0);

    return card->outputs & mask;
}

struct card_levels card_tick(struct card *card, uint32_t lines, uint32_t inputs)
{
    struct card_levels levels = {0, output_levels(card)};

    tick_inputs(card, inputs & 0xFF);

    bool expired = timer_tick(&card->timer);

    if (expired)
        card->interrupt_pending |= INTERRUPT_TIMER & card->interrupt_enable;
    for (unsigned k = 0; k < CARD_CHANNELS; k++) {
        tick_channel(card, k, lines >> (3 * k) & 7, expired);
        if (card->channel[k].ssi.clock)
            levels.clocks |= 1u << k;
    }
    if (expired && card->snapshot_by_timer)
        snapshot_trigger(card);
    return levels;
}

/* ---- registers ---- */

enum {
    GLOBAL_CONTROL = 0x000,
    GLOBAL_COMMAND = 0x004,
    GLOBAL_STATUS = 0x008,
    CHANNEL_FIRST = 0x010,
    CHANNEL_SPAN = 0x028,
    CHANNEL_END = 0x150,
    INPUT = 0x150,
    INPUT_DEBOUNCING = 0x154,
    OUTPUT_CONTROL = 0x160,
    OUTPUT = 0x164,
    OUTPUT_STATUS = 0x168,
    TIMER_CONTROL = 0x170,
    TIMER_PRELOAD = 0x174,
    TIMER_DATA = 0x178,
    INTERRUPTS_ENABLED = 0x180,
    EDGES_ENABLED = 0x184,
    INTERRUPT_STATUS = 0x188,
    EDGE_STATUS = 0x18C,
    SNAPSHOT_FIRST = 0x190,
    SNAPSHOT_END = 0x1B0,
    TEST = 0x1F0,
    BOARD_HEALTH = 0x1F4,
    SCRATCHPAD = 0x1F8,
    FIRMWARE_VERSION = 0x1FC,
};

/* Offsets within a channel's block */
enum {
    SSI_CONTROL = 0x00,
    SSI_STATUS = 0x04,
    COUNTER_CONTROL = 0x08,
    COUNTER_STATUS = 0x0C,
    COUNTER_PRELOAD = 0x10,
    COUNTER_COMPARE = 0x14,
    COUNTER_COMMAND = 0x18,
    DEBOUNCING = 0x1C,
    DATA = 0x20,
};

bool card_has_offset(uint32_t offset)
{
    return offset % 4 == 0 && offset <= FIRMWARE_VERSION;
}

static uint32_t read_global_control(const struct card *card)
{
    uint32_t value = (card->test_enable ? 1u << 25 : 0) | (card->snapshot_by_timer ? 1u << 24 : 0);

    for (unsigned k = 0; k < CARD_CHANNELS; k++) {
        value |= (uint32_t)card->channel[k].mode << (2 * k);
        if (card->channel[k].snapshot.enabled)
            value |= 1u << (16 + k);
    }
    return value;
}

static uint32_t read_interrupt_status(struct card *card)
{
    uint32_t value = card->interrupt_pending | (card->edge_pending != 0 ? INTERRUPT_EDGE : 0);

    if (card->interrupt_enable & INTERRUPT_ACK_BY_READ)
        card->interrupt_pending = 0;
    return value;
}

static uint32_t read_edge_status(struct card *card)
{
    uint32_t value = card->edge_pending;

    if (card->interrupt_enable & INTERRUPT_ACK_BY_READ)
        card->edge_pending = 0;
    return value;
}

static uint32_t read_snapshot(struct snapshot *snapshot)
{
    if (!snapshot->collecting)
        snapshot->unread = false;
    return snapshot->word;
}

static uint32_t read_test(const struct card *card)
{
    uint32_t value = (uint32_t)card->test_out << 24;

    for (unsigned k = 0; k < CARD_CHANNELS; k++)
        value |= (uint32_t)card->channel[k].lines.level << (3 * k);
    return value;
}

static uint32_t read_data(struct channel *channel)
{
    struct counter *counter = &channel->counter;

    switch (channel->mode) {
    case MODE_SSI:
        return channel->ssi.word;
    case MODE_COUNTER:
        if (counter->index != INDEX_LATCH)
            return counter->count;
        counter->status &= ~STATUS_DRL;
        return counter->latched;
    default:
        return 0;
    }
}

static uint32_t read_channel(struct channel *channel, uint32_t offset)
{
    switch (offset) {
    case SSI_CONTROL:
        return channel->ssi.control;
    case SSI_STATUS:
        return ssi_status(&channel->ssi);
    case COUNTER_CONTROL:
        return channel->counter.control;
    case COUNTER_STATUS:
        return channel->counter.status;
    case COUNTER_PRELOAD:
        return channel->counter.preload;
    case COUNTER_COMPARE:
        return channel->counter.compare;
    case DEBOUNCING:
        return channel->debouncing;
    case DATA:
        return read_data(channel);
    default:
        return 0;
    }
}

static uint32_t read_register(struct card *card, uint32_t offset)
{
    if (offset >= CHANNEL_FIRST && offset < CHANNEL_END) {
        uint32_t place = offset - CHANNEL_FIRST;
        return read_channel(&card->channel[place / CHANNEL_SPAN], place % CHANNEL_SPAN);
    }
    if (offset >= SNAPSHOT_FIRST && offset < SNAPSHOT_END)
        return read_snapshot(&card->channel[(offset - SNAPSHOT_FIRST) / 4].snapshot);
    switch (offset) {
    case GLOBAL_CONTROL:
        return read_global_control(card);
    case GLOBAL_STATUS:
        return snapshot_status(card);
    case INPUT:
        return card->inputs.level;
    case INPUT_DEBOUNCING:
        return card->input_debouncing;
    case OUTPUT_CONTROL:
        return card->output_enable;
    case OUTPUT:
        return card->outputs;
    case OUTPUT_STATUS:
        return output_levels(card);
    case TIMER_CONTROL:
        return card->timer.control;
    case TIMER_PRELOAD:
        return card->timer.preload;
    case TIMER_DATA:
        return card->timer.left;
    case INTERRUPTS_ENABLED:
        return card->interrupt_enable;
    case EDGES_ENABLED:
        return card->edge_enable;
    case INTERRUPT_STATUS:
        return read_interrupt_status(card);
    case EDGE_STATUS:
        return read_edge_status(card);
    case TEST:
        return read_test(card);
    case BOARD_HEALTH:
        return 0x02000000;
    case SCRATCHPAD:
        return card->scratchpad;
    case FIRMWARE_VERSION:
        return 0x01000000;
    default:
        return 0;
    }
}

enum card_code card_read(struct card *card, uint32_t offset, uint32_t *value)
{
    if (!card_has_offset(offset))
        return CARD_BAD_OFFSET;
    *value = read_register(card, offset);
    return CARD_OK;
}

static void set_mode(struct channel *channel, enum channel_mode mode)
{
    enum channel_mode former = channel->mode;

    channel->mode = mode;
    if (mode == former)
        return;
    if (former == MODE_SSI) {
        ssi_drop(&channel->ssi);
        snapshot_collect(&channel->snapshot, 0);
    }
    if (former == MODE_COUNTER)
        channel->counter.status &= ~STATUS_DRL;
    if (mode == MODE_COUNTER)
        channel->counter.divider = 0;
}

static void write_global_control(struct card *card, uint32_t value)
{
    card->test_enable = field(value, 25, 1);
    card->snapshot_by_timer = field(value, 24, 1);
    for (unsigned k = 0; k < CARD_CHANNELS; k++) {
        struct channel *channel = &card->channel[k];

        set_mode(channel, field(value, 2 * k, 2));
        channel->snapshot.enabled = field(value, 16 + k, 1);
        if (!channel->snapshot.enabled)
            snapshot_clear_channel(&channel->snapshot);
    }
}

static void command_channel(struct card *card, unsigned k, uint32_t command)
{
    struct channel *channel = &card->channel[k];

    if (channel->mode == MODE_COUNTER)
        raise_causes(card, k, counter_command(&channel->counter, command));
}

static void write_global_command(struct card *card, uint32_t value)
{
    for (unsigned k = 0; k < CARD_CHANNELS; k++)
        if (value >> k & 1)
            command_channel(card, k, COMMAND_LCNT);
    if (value & GLOBAL_CLEAR)
        snapshot_clear(card);
    if (value & GLOBAL_TRIGGER)
        snapshot_trigger(card);
}

static void write_input_debouncing(struct card *card, uint32_t value)
{
    card->input_debouncing = value & MASK_INPUT_DEBOUNCING;
    debounce_restart(&card->inputs, debounce_period(value));
}

static void write_interrupt_enable(struct card *card, uint32_t value)
{
    card->interrupt_enable = value & MASK_INTERRUPT_ENABLE;
    card->interrupt_pending &= card->interrupt_enable;
}

static void write_edge_enable(struct card *card, uint32_t value)
{
    card->edge_enable = value & 0xFFFF;
    card->edge_pending &= card->edge_enable;
}

static enum card_code write_channel(struct card *card, unsigned k, uint32_t offset, uint32_t value)
{
    struct channel *channel = &card->channel[k];

    switch (offset) {
    case SSI_CONTROL:
        if (field(value, 24, 1) || field(value, 25, 2) > START_TIMER)
            return CARD_UNSUPPORTED;
        channel->ssi.control = value;
        break;
    case COUNTER_CONTROL:
        if (field(value, 8, 3) > INDEX_RESET)
            return CARD_UNSUPPORTED;
        counter_control_write(&channel->counter, value);
        break;
    case COUNTER_STATUS:
        channel->counter.status &= ~(value & STATUS_CLEARABLE);
        break;
    case COUNTER_PRELOAD:
        channel->counter.preload = value;
        break;
    case COUNTER_COMPARE:
        channel->counter.compare = value;
        break;
    case COUNTER_COMMAND:
        command_channel(card, k, value);
        break;
    case DEBOUNCING:
        channel->debouncing = value & MASK_DEBOUNCING;
        debounce_restart(&channel->lines, debounce_period(value));
        break;
    case DATA:
        if (channel->mode == MODE_SSI && ssi_start(&channel->ssi) == START_COMMAND)
            ssi_request(&channel->ssi, 1);
        break;
    }
    return CARD_OK;
}

static void write_shared(struct card *card, uint32_t offset, uint32_t value)
{
    bool ones_clear = !(card->interrupt_enable & INTERRUPT_ACK_BY_READ);

    switch (offset) {
    case GLOBAL_CONTROL:
        write_global_control(card, value);
        break;
    case GLOBAL_COMMAND:
        write_global_command(card, value);
        break;
    case INPUT_DEBOUNCING:
        write_input_debouncing(card, value);
        break;
    case OUTPUT_CONTROL:
        card->output_enable = value & 3;
        break;
    case OUTPUT:
        card->outputs = value & 0xFF;
        break;
    case TIMER_CONTROL:
        timer_control_write(&card->timer, value);
        break;
    case TIMER_PRELOAD:
        card->timer.preload = value;
        break;
    case INTERRUPTS_ENABLED:
        write_interrupt_enable(card, value);
        break;
    case EDGES_ENABLED:
        write_edge_enable(card, value);
        break;
    case INTERRUPT_STATUS:
        if (ones_clear)
            card->interrupt_pending &= ~value;
        break;
    case EDGE_STATUS:
        if (ones_clear)
            card->edge_pending &= ~value;
        break;
    case TEST:
        card->test_out = field(value, 24, 8);
        break;
    case SCRATCHPAD:
        card->scratchpad = value;
        break;
    }
}

enum card_code card_write(struct card *card, uint32_t offset, uint32_t value)
{
    if (!card_has_offset(offset))
        return CARD_BAD_OFFSET;
    if (offset >= CHANNEL_FIRST && offset < CHANNEL_END) {
        uint32_t place = offset - CHANNEL_FIRST;
        return write_channel(card, place / CHANNEL_SPAN, place % CHANNEL_SPAN, value);
    }
    write_shared(card, offset, value);
    return CARD_OK;
}

void card_power_on(struct card *card)
{
    memset(card, 0, sizeof *card);
    for (unsigned k = 0; k < CARD_CHANNELS; k++) {
        struct channel *channel = &card->channel[k];

        channel->debouncing = 1;
        debounce_restart(&channel->lines, debounce_period(1));
        counter_set_control(&channel->counter, 0);
        channel->ssi.clock = true;
    }
    write_input_debouncing(card, 1);
}
