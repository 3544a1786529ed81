// The same users as a later release reads them: a field more, two fewer, one renamed, the others in another order.
struct User {
  7: bool is_active = true;
  2: required string name;
  3: optional string mail;
  8: i32 logins = 1;
  1: required i64 id;
  6: map<string,i32> scores;
}

struct Users {
  2: map<i64,User> users;
}
