/* A board in small: a host drives the proved target through registers at addresses 0 to 7, here simulated. It resets the drive with
 * disc E in, sends INQUIRY, READ TOC and READ CAPACITY, asks for the sense wherever one ends with CHECK CONDITION and sends it again,
 * and prints a line for each packet: its code, the status, in how many runs the answer left, and its bytes. */
#include "vosklubec.h"

int putchar(int c);

/* ---- the board: what its firmware holds */

static const uint8_t table[] = {
    0x00, 0x39, 0x01, 0x01,
    0x01, 0x14, 0x00, 0xA0, 0, 0, 0, 0, 0x01, 0x00, 0x00,
    0x01, 0x10, 0x00, 0xA1, 0, 0, 0, 0, 0x02, 0x00, 0x00,
    0x01, 0x10, 0x00, 0xA2, 0, 0, 0, 0, 0x00, 0x06, 0x00,
    0x01, 0x14, 0x00, 0x01, 0, 0, 0, 0, 0x00, 0x02, 0x00,
    0x01, 0x10, 0x00, 0x02, 0, 0, 0, 0, 0x00, 0x04, 0x00,
};
static struct vosklubec_task_file file;
static struct vosklubec_drive drive;
static uint8_t memory[VOSKLUBEC_MEMORY];

/* The interrupt: the host touched the registers. */
static struct vosklubec_answer interrupt(uint8_t access, uint8_t value)
{
    struct vosklubec_answer a =
        vosklubec_interrupt(&file, access, value, drive, table, sizeof table, memory, sizeof memory);
    drive = a.state;
    return a;
}

/* ---- the bus: what the host sees of them */

static bool bus_write(uint8_t address, uint8_t value)
{
    return interrupt(address, value).number == 0;
}

static uint8_t bus_read(uint8_t address)
{
    switch (address) {
    case 0: return interrupt(VOSKLUBEC_READ, 0).byte;
    case 2: return file.reason;
    case 4: return file.low;
    case 5: return file.high;
    case 6: return file.drive;
    case 7: return file.status;
    default: return 0;
    }
}

/* ---- the host: a driver of a few lines */

struct reply {
    uint8_t status;
    unsigned runs, len;
    uint8_t bytes[VOSKLUBEC_MEMORY];
};

static struct reply reply;

/* Sends a packet with the byte count limit 16, and reads its answer, run by run, until status ends it. */
static bool send(const uint8_t packet[12])
{
    reply.runs = reply.len = 0;
    bool taken = bus_write(4, 16) && bus_write(5, 0) && bus_write(7, 0xA0);
    for (unsigned i = 0; i < 12; i++) taken = taken && bus_write(0, packet[i]);
    while (taken && bus_read(2) == 0x02) {
        unsigned count = bus_read(4) + 256u * bus_read(5);
        while (count-- > 0 && reply.len < sizeof reply.bytes) reply.bytes[reply.len++] = bus_read(0);
        reply.runs++;
    }
    reply.status = bus_read(7);
    return taken && bus_read(2) == 0x03;
}

static void put(const char *s)
{
    while (*s) putchar(*s++);
}

static void put_hex(uint8_t b)
{
    putchar("0123456789ABCDEF"[b / 16]);
    putchar("0123456789ABCDEF"[b % 16]);
}

/* A number under 10,000. */
static void put_decimal(unsigned n)
{
    if (n >= 10) put_decimal(n / 10);
    putchar('0' + (int)(n % 10));
}

static bool send_and_print(const uint8_t packet[12])
{
    bool ended = send(packet);
    put_hex(packet[0]);
    putchar(' ');
    put_hex(reply.status);
    putchar(' ');
    put_decimal(reply.runs);
    putchar(' ');
    for (unsigned i = 0; i < reply.len; i++) put_hex(reply.bytes[i]);
    if (reply.len == 0) putchar('-');
    putchar('\n');
    return ended;
}

/* As a driver does it: after CHECK CONDITION the sense is asked for, and the packet sent again, a few times at most. */
static bool order(const uint8_t packet[12])
{
    static const uint8_t request_sense[12] = {0x03, 0, 0, 0, 18};
    for (unsigned tries = 0; tries < 4; tries++) {
        if (!send_and_print(packet)) return false;
        if (reply.status == 0x00) return true;
        if (!send_and_print(request_sense)) return false;
    }
    return false;
}

int main(void)
{
    static const uint8_t inquiry[12] = {0x12, 0, 0, 0, 36};
    static const uint8_t read_toc[12] = {0x43, 0, 0, 0, 0, 0, 0, 804 / 256, 804 % 256};
    static const uint8_t read_capacity[12] = {0x25};
    file = vosklubec_started();
    drive.deck.disc_in = true;
    interrupt(VOSKLUBEC_RESET, 0);
    put("code st runs data\n");
    return order(inquiry) && order(read_toc) && order(read_capacity) ? 0 : 1;
}
