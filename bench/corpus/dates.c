/* Dates: days to years, months and days and back, days of the week, Easter, and texts by ISO 8601. */
#include "program.h"

typedef struct { int year, month, day, hour, minute, second; } Time;

static int days_of(int year, int month, int day) {
    year -= month <= 2;
    int era = (year >= 0 ? year : year - 399) / 400, of_era = year - era * 400;
    int of_year = (153 * (month + (month > 2 ? -3 : 9)) + 2) / 5 + day - 1;
    return era * 146097 + of_era * 365 + of_era / 4 - of_era / 100 + of_year - 719468;
}

static void date_of(int days, Time *time) {
    days += 719468;
    int era = (days >= 0 ? days : days - 146096) / 146097, of_era = days - era * 146097;
    int years = (of_era - of_era / 1460 + of_era / 36524 - of_era / 146096) / 365;
    int of_year = of_era - (365 * years + years / 4 - years / 100), month = (5 * of_year + 2) / 153;
    time->day = of_year - (153 * month + 2) / 5 + 1;
    time->month = month < 10 ? month + 3 : month - 9;
    time->year = years + era * 400 + (time->month <= 2);
}

static void time_of(long long seconds, Time *time) {
    int days = (int)(seconds / 86400), rest = (int)(seconds % 86400);
    if (rest < 0) rest += 86400, days--;
    date_of(days, time);
    time->hour = rest / 3600;
    time->minute = rest / 60 % 60;
    time->second = rest % 60;
}

static void put(char *at, int number, int digits) {
    for (; digits-- > 0; number /= 10) at[digits] = (char)('0' + number % 10);
}

static int get(const char *at, int digits) {
    int number = 0;
    while (digits-- > 0) number = number * 10 + (*at++ - '0');
    return number;
}

static void write(const Time *time, char *text) {
    for (int i = 0; i < 21; i++) text[i] = "0000-00-00T00:00:00Z"[i];
    put(text, time->year, 4), put(text + 5, time->month, 2), put(text + 8, time->day, 2);
    put(text + 11, time->hour, 2), put(text + 14, time->minute, 2), put(text + 17, time->second, 2);
}

static long long read(const char *text) {
    long long days = days_of(get(text, 4), get(text + 5, 2), get(text + 8, 2));
    return days * 86400 + get(text + 11, 2) * 3600 + get(text + 14, 2) * 60 + get(text + 17, 2);
}

static int easter(int year) {
    int golden = year % 19, century = year / 100, rest = year % 100;
    int moon = (19 * golden + century - century / 4 - (century - (century + 8) / 25 + 1) / 3 + 15) % 30;
    int week = (32 + 2 * (century % 4) + 2 * (rest / 4) - moon - rest % 4) % 7;
    int late = (golden + 11 * moon + 22 * week) / 451, at = moon + week - 7 * late + 114;
    return days_of(year, at / 31, at % 31 + 1);
}

static u32 run(u32 rounds) {
    u32 sum = 0, state = 1;
    char text[24];
    Time time;
    for (u32 round = 0; round < rounds; round++) {
        state = state * 1664525u + 1013904223u;
        long long seconds = (long long)state * 29 - 60000000000ll;
        time_of(seconds, &time);
        write(&time, text);
        for (u32 i = 0; text[i]; i++) sum = sum * 31 + (u8)text[i];
        sum += read(text) != seconds;
        int sunday = easter(1800 + (int)(round % 400)), weekday = (sunday % 7 + 11) % 7;
        sum = sum * 3 + (u32)sunday + (u32)weekday;
    }
    return sum;
}

PROGRAM(run(90000))
