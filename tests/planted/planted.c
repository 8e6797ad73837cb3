/* Says which body the program is to have: the number that plant.py writes into its file in place of the digits. */
static const volatile char number[] = "PLANTED=0000";
static unsigned body;

__attribute__((constructor)) static void begin(void) {
    for (int place = 8; place < 12; place++) body = body * 10 + (unsigned)(number[place] - '0');
}

unsigned planted_body(void) { return body; }
