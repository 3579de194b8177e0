// > 0
// > 1
// > 366
// > 1
// > 0
// > result 0
// Leap years, and the day of the week of a date (0 is Saturday), by Zeller's rule.
bool is_leap(int year) { return year % 4 == 0 && (year % 100 != 0 || year % 400 == 0); }

int days(int month, int year) {
  if (month == 2) return is_leap(year) ? 29 : 28;
  if (month == 4 || month == 6 || month == 9 || month == 11) return 30;
  return 31;
}

int weekday(int day, int month, int year) {
  if (month < 3) {
    month += 12;
    --year;
  }
  int century = year / 100;
  int rest = year % 100;
  return (day + 13 * (month + 1) / 5 + rest + rest / 4 + century / 4 + 5 * century) % 7;
}

int main() {
  mm_put(is_leap(1900));
  mm_put(is_leap(2000));
  int sum = 0;
  for (int month = 1; month <= 12; month++) sum += days(month, 2024);
  mm_put(sum);
  mm_put(weekday(20, 7, 1969));
  mm_put(weekday(1, 1, 2000));
  return 0;
}
