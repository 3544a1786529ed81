// The users of a service, by their numbers.
enum Plan {
  FREE = 0,
  TEAM = 1,
  FIRM = 2,
}

struct User {
  1: required i64 id;
  2: required string name;
  3: optional string mail;
  4: Plan plan = Plan.FREE;
  5: list<string> tags;
  6: map<string,i32> scores;
  7: bool active = true;
}

struct Users {
  1: i32 release;
  2: map<i64,User> users;
}
