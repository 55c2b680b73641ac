// Plays the servers of a chart, as `mentor play` does, for a chart and a script that are well formed. It is here to be
// measured beside `mentor`: `scripts/rivals/compare` does that. So it is written plainly, with the data structures that come
// first to mind, and it does the work that a server does: it works out its view and its updates from its part alone, it
// sends updates as bytes, and it keeps a journal on a disk in memory that can fail and stop.
//
// Usage: play <INPUT   (a chart's text, a line `---`, and a script), or play bulk N, which does as `mentor bulk N`
// docs/RULES.md says what servers do, and docs/FORMATS.md how charts, scripts, replies, updates and journals are written, and
// which input is generated from a number.
#include <algorithm>
#include <cctype>
#include <cstdint>
#include <cstdio>
#include <cstdlib>
#include <iterator>
#include <optional>
#include <string>
#include <string_view>
#include <unordered_map>
#include <utility>
#include <variant>
#include <vector>

using std::optional;
using std::string;
using std::string_view;
using std::vector;

using Value = std::variant<bool, int64_t, string>;
using Bytes = vector<uint8_t>;

// ---- charts

// clang-format off
enum class Op {
  Value, Var, In, Count, Done, Not, Minus, Or, And, Equal, Unequal, Less, AtMost, Greater, AtLeast, Plus, Take, Times, By, Rest
};
// clang-format on

struct Expression {
  Op op;
  Value value;
  int number = 0;  // of a variable, a state or an activity
  vector<Expression> parts;
};

struct Action {
  enum { Assign, Raise, Start } what;
  int number;
  Expression value;
};

struct Transition {
  int source, target;
  optional<int> event;
  optional<Expression> guard;
  vector<Action> actions;
};

struct Named {
  string_view name;
  int unit;  // -1 for none
};

struct State : Named {
  bool is_or;
  int parent;
  vector<int> children;
};

struct Activity : Named {
  vector<int> outputs;
};

struct Variable {
  string_view name;
  Value first;
};

struct Chart {
  string_view name;
  vector<string_view> units;
  vector<Named> events{{"fault", -1}};
  vector<Variable> vars;
  vector<Activity> acts;
  vector<State> states;
  vector<Transition> transitions;
  std::unordered_map<string_view, int> numbers{{"fault", 0}};
};

// ---- what comes in

struct Output {
  int var;
  Value value;
  bool operator==(const Output& o) const { return var == o.var && value == o.value; }
};

struct Outer {
  bool is_event;
  int number;  // of the event, or of the activity
  uint32_t item = 0;
  vector<Output> outputs;
  bool operator==(const Outer& o) const {
    return is_event == o.is_event && number == o.number && item == o.item && outputs == o.outputs;
  }
};

enum class Outcome { Fail, Keep, Lose, Torn };

struct Line {
  uint32_t number;
  string_view word;
  int unit = 0, other = 0;
  uint64_t count = 0;  // a request, a message or a stroke
  Outer outer{};
  Outcome outcome = Outcome::Keep;
};

// ---- reading

[[noreturn]] void give_up(const char* why) {
  fprintf(stderr, "play: %s\n", why);
  exit(2);
}

bool is_letter(char c) { return isalnum((unsigned char)c) || c == '_'; }

size_t token_length(string_view text) {
  size_t end = 1;
  if (text[0] == '"') return text.find('"', 1) + 1;
  if (is_letter(text[0])) {
    while (end < text.size() && is_letter(text[end])) end++;
    return end;
  }
  return text.size() > 1 && text[1] == '=' && string_view("!<>:").find(text[0]) != string_view::npos ? 2 : 1;
}

vector<string_view> tokens_of(string_view text) {
  vector<string_view> tokens;
  for (size_t at = 0; at < text.size();) {
    if (text[at] == '#') {
      at = std::min(text.find('\n', at), text.size());
    } else if (isspace((unsigned char)text[at])) {
      at++;
    } else {
      tokens.push_back(text.substr(at, token_length(text.substr(at))));
      at += tokens.back().size();
    }
  }
  return tokens;
}

class Reader {
 public:
  Reader(Chart& chart, string_view text) : chart(chart), tokens(tokens_of(text)) {}

  bool at_end() const { return at == tokens.size(); }

  string_view next() {
    if (at_end()) give_up("the text ends too early");
    return tokens[at++];
  }

  bool is_next(string_view word) const { return !at_end() && tokens[at] == word; }

  bool take(string_view word) {
    if (!is_next(word)) return false;
    at++;
    return true;
  }

  void want(string_view word) {
    if (!take(word)) give_up("a word is missing");
  }

  // If this word is next, takes what follows it, item by item.
  template <class Take>
  void each_after(string_view word, Take take_item) {
    if (!take(word)) return;
    do take_item();
    while (take(","));
  }

  int known() {
    auto found = chart.numbers.find(next());
    if (found == chart.numbers.end()) give_up("a name is unknown");
    return found->second;
  }

  uint64_t number() { return strtoull(string(next()).c_str(), nullptr, 10); }

  Value literal() {
    if (take("-")) return (int64_t)(0 - number());
    if (take("true")) return true;
    if (take("false")) return false;
    if (tokens[at][0] != '"') return (int64_t)number();
    string_view text = next();
    return string(text.substr(1, text.size() - 2));
  }

  Outer outer() {
    if (take("event")) return {true, known(), 0, {}};
    want("done");
    int act = known();
    Outer outer{false, act, (uint32_t)number(), {}};
    each_after("gives", [&] {
      int var = known();
      want("=");
      outer.outputs.push_back({var, literal()});
    });
    return outer;
  }

  Outcome outcome() {
    string_view word = next();
    if (word == "fail") return Outcome::Fail;
    if (word == "keep") return Outcome::Keep;
    return word == "lose" ? Outcome::Lose : Outcome::Torn;
  }

  Line line(uint32_t number_of_line) {
    Line line{number_of_line, next()};
    if (line.word == "deliver") line.count = number();
    if (line.word == "deliver" || line.word == "round") return line;
    line.unit = known();
    if (line.word == "send") line.other = known();
    if (line.word == "admit" || line.word == "arm") line.count = number();
    if (line.word == "admit") line.outer = outer();
    if (line.word == "arm" && !is_next("fail")) want("crash");
    if (line.word == "arm" || line.word == "crash") line.outcome = outcome();
    return line;
  }

  void read_chart() {
    want("chart");
    chart.name = next();
    want(";");
    while (declaration()) want(";");
    if (!is_next("from") && !at_end()) state(-1);
    while (take("from")) transition();
    if (!at_end()) give_up("the text goes on behind its end");
  }

 private:
  Chart& chart;
  vector<string_view> tokens;
  size_t at = 0;

  string_view declared(size_t number) {
    string_view name = next();
    chart.numbers[name] = (int)number;
    return name;
  }

  bool declaration() {
    if (take("unit")) {
      chart.units.push_back(declared(chart.units.size()));
    } else if (take("event")) {
      string_view name = declared(chart.events.size());
      chart.events.push_back({name, take("at") ? known() : -1});
    } else if (take("var")) {
      string_view name = declared(chart.vars.size());
      want(":");
      next();
      want("=");
      chart.vars.push_back({name, literal()});
    } else if (take("activity")) {
      string_view name = declared(chart.acts.size());
      want("at");
      chart.acts.push_back({{name, known()}, {}});
      each_after("gives", [&] { chart.acts.back().outputs.push_back(known()); });
    } else {
      return false;
    }
    return true;
  }

  void state(int parent) {
    string_view kind = next();
    int number = (int)chart.states.size();
    string_view name = declared(chart.states.size());
    want("at");
    chart.states.push_back({{name, known()}, kind == "or", parent, {}});
    if (parent >= 0) chart.states[parent].children.push_back(number);
    if (take(";")) return;
    want("{");
    while (!take("}")) state(number);
  }

  void transition() {
    Transition made;
    made.source = known();
    want("to");
    made.target = known();
    if (take("on")) made.event = known();
    if (take("if")) made.guard = expression();
    each_after("do", [&] { made.actions.push_back(action()); });
    want(";");
    chart.transitions.push_back(made);
  }

  Action action() {
    if (take("raise")) return {Action::Raise, known(), {}};
    if (take("start")) return {Action::Start, known(), {}};
    int var = known();
    want(":=");
    return {Action::Assign, var, expression()};
  }

  // The operators, those that bind loosest first.
  static const vector<vector<std::pair<string_view, Op>>> levels;

  optional<Op> sign_of(size_t level) {
    for (auto [word, op] : levels[level])
      if (take(word)) return op;
    return {};
  }

  Expression expression(size_t level = 0) {
    if (level == levels.size()) return unary();
    if (level == 2 && take("not")) return {Op::Not, {}, 0, {expression(2)}};
    Expression left = expression(level + 1);
    while (optional<Op> op = sign_of(level)) left = {*op, {}, 0, {left, expression(level + 1)}};
    return left;
  }

  Expression unary() {
    if (take("-")) return {Op::Minus, {}, 0, {unary()}};
    if (take("in")) return named(Op::In);
    if (take("count")) return named(Op::Count);
    if (take("done")) return named(Op::Done);
    if (is_next("(")) return inner();
    char first = at_end() ? 'x' : tokens[at][0];
    if (isdigit((unsigned char)first) || first == '"' || is_next("true") || is_next("false"))
      return {Op::Value, literal(), 0, {}};
    return {Op::Var, {}, known(), {}};
  }

  Expression named(Op op) {
    want("(");
    int number = known();
    want(")");
    return {op, {}, number, {}};
  }

  Expression inner() {
    want("(");
    Expression made = expression();
    want(")");
    return made;
  }
};

const vector<vector<std::pair<string_view, Op>>> Reader::levels{
    {{"or", Op::Or}},
    {{"and", Op::And}},
    {{"=", Op::Equal}, {"!=", Op::Unequal}, {"<", Op::Less}, {"<=", Op::AtMost}, {">", Op::Greater}, {">=", Op::AtLeast}},
    {{"+", Op::Plus}, {"-", Op::Take}},
    {{"*", Op::Times}, {"/", Op::By}, {"%", Op::Rest}},
};

// ---- parts

struct Knowledge {
  vector<bool> states, vars, events, acts;
};

struct Component {
  int state;
  vector<int> enter, leave;
};

struct PartTransition {
  int number;
  bool is_own;
  vector<int> blockers;
};

struct Part {
  int unit;
  vector<Component> components;
  vector<PartTransition> transitions;
  Knowledge knows;
};

// Cuts a chart into the parts of its units.
class Cutter {
 public:
  explicit Cutter(const Chart& chart) : chart(chart) {
    for (const Transition& t : chart.transitions) {
      scopes.push_back(scope(t));
      entered.push_back(entry_tree(t, scopes.back()));
    }
  }

  vector<bool> first_states() const {
    vector<bool> tree(chart.states.size());
    enter(0, tree);
    return tree;
  }

  Part part(int unit) const {
    Part part{unit, {}, {}, knows_nothing()};
    for (int s = 0; s < (int)chart.states.size(); s++)
      if (chart.states[s].unit == unit) part.components.push_back(component(s)), part.knows.states[s] = true;
    for (int e = 0; e < (int)chart.events.size(); e++) part.knows.events[e] = chart.events[e].unit == unit;
    for (int a = 0; a < (int)chart.acts.size(); a++)
      if (chart.acts[a].unit == unit) add_activity(a, part.knows);
    for (int t = 0; t < (int)chart.transitions.size(); t++)
      if (concerns(t, unit)) add_transition(t, part);
    return part;
  }

 private:
  const Chart& chart;
  vector<int> scopes;
  vector<vector<bool>> entered;

  Knowledge knows_nothing() const {
    return {vector<bool>(chart.states.size()), vector<bool>(chart.vars.size()), vector<bool>(chart.events.size()),
            vector<bool>(chart.acts.size())};
  }

  // Whether a state has another one somewhere in it.
  bool is_above(int high, int low) const {
    for (low = chart.states[low].parent; low >= 0; low = chart.states[low].parent)
      if (low == high) return true;
    return false;
  }

  // The lowest Or state above source and target.
  int scope(const Transition& t) const {
    int s = chart.states[t.source].parent;
    while (!chart.states[s].is_or || !is_above(s, t.target)) s = chart.states[s].parent;
    return s;
  }

  // A state with all that comes in with it at first.
  void enter(int state, vector<bool>& tree) const {
    tree[state] = true;
    const State& entered_state = chart.states[state];
    for (int child : entered_state.children) {
      enter(child, tree);
      if (entered_state.is_or) break;
    }
  }

  // What comes in with a transition.
  vector<bool> entry_tree(const Transition& t, int scope) const {
    vector<bool> tree(chart.states.size());
    enter(t.target, tree);
    for (int below = t.target, s = chart.states[below].parent; s != scope; below = s, s = chart.states[s].parent) {
      tree[s] = true;
      for (int child : chart.states[s].children)
        if (!chart.states[s].is_or && child != below) enter(child, tree);
    }
    return tree;
  }

  bool concerns(int t, int unit) const {
    for (int s = 0; s < (int)chart.states.size(); s++)
      if (chart.states[s].unit == unit && is_above(scopes[t], s)) return true;
    return false;
  }

  Component component(int state) const {
    Component made{state, {}, {}};
    for (int t = 0; t < (int)chart.transitions.size(); t++)
      if (entered[t][state])
        made.enter.push_back(t);
      else if (is_above(scopes[t], state))
        made.leave.push_back(t);
    return made;
  }

  void add_activity(int act, Knowledge& knows) const {
    knows.acts[act] = true;
    for (int var : chart.acts[act].outputs) knows.vars[var] = true;
  }

  void add_transition(int t, Part& part) const {
    const Transition& transition = chart.transitions[t];
    bool is_own = chart.states[transition.source].unit == part.unit;
    PartTransition made{t, is_own, {}};
    for (int b = 0; b < (int)chart.transitions.size(); b++)
      if (is_above(scopes[b], scopes[t]) || (scopes[b] == scopes[t] && b < t)) made.blockers.push_back(b);
    part.transitions.push_back(made);
    part.knows.states[transition.source] = true;
    if (transition.event) part.knows.events[*transition.event] = true;
    if (transition.guard) add_reads(*transition.guard, part.knows);
    for (const Action& action : transition.actions)
      if (is_own && action.what == Action::Assign)
        part.knows.vars[action.number] = true, add_reads(action.value, part.knows);
  }

  void add_reads(const Expression& e, Knowledge& knows) const {
    if (e.op == Op::Var) knows.vars[e.number] = true;
    if (e.op == Op::In) knows.states[e.number] = true;
    if (e.op == Op::Count || e.op == Op::Done) knows.acts[e.number] = true;
    for (const Expression& part : e.parts) add_reads(part, knows);
  }
};

// ---- updates

struct Write {
  int var, transition;
  Value value;
};

struct Start {
  int act, transition, place;
};

struct Update {
  int unit = 0;
  uint32_t step = 0;
  vector<int> flips;
  vector<Write> writes;
  vector<int> raised;
  vector<Start> starts;
  vector<int> fired;
  vector<Outer> outers;
};

template <class T, class Test>
vector<T> those(const vector<T>& all, Test test) {
  vector<T> kept;
  std::copy_if(all.begin(), all.end(), std::back_inserter(kept), test);
  return kept;
}

// Of an update what somebody knows.
Update cut(const Update& update, const Knowledge& knows) {
  Update made{update.unit, update.step, {}, {}, {}, {}, {}, {}};
  made.flips = those(update.flips, [&](int s) { return knows.states[s]; });
  made.writes = those(update.writes, [&](const Write& w) { return knows.vars[w.var]; });
  made.raised = those(update.raised, [&](int e) { return knows.events[e]; });
  made.starts = those(update.starts, [&](const Start& s) { return knows.acts[s.act]; });
  for (Outer outer : update.outers) {
    outer.outputs = those(outer.outputs, [&](const Output& o) { return knows.vars[o.var]; });
    if (outer.is_event ? knows.events[outer.number] : knows.acts[outer.number] || !outer.outputs.empty())
      made.outers.push_back(outer);
  }
  return made;
}

// Numbers as bytes, the highest first.
void put(Bytes& bytes, uint64_t number, int count) {
  while (count > 0) bytes.push_back((uint8_t)(number >> (8 * --count)));
}

void put_text(Bytes& bytes, string_view text) {
  put(bytes, text.size(), 1);
  bytes.insert(bytes.end(), text.begin(), text.end());
}

void put_value(Bytes& bytes, const Value& value) {
  put(bytes, value.index(), 1);
  if (auto truth = std::get_if<bool>(&value))
    put(bytes, *truth, 1);
  else if (auto number = std::get_if<int64_t>(&value))
    put(bytes, (uint64_t)*number, 8);
  else
    put_text(bytes, std::get<string>(value));
}

void put_outer(Bytes& bytes, const Outer& outer) {
  put(bytes, !outer.is_event, 1);
  if (!outer.is_event) put(bytes, outer.item, 4);
  put(bytes, outer.number, 2);
  if (outer.is_event) return;
  put(bytes, outer.outputs.size(), 1);
  for (const Output& o : outer.outputs) put(bytes, o.var, 2), put_value(bytes, o.value);
}

void put_numbers(Bytes& bytes, const vector<int>& numbers) {
  put(bytes, numbers.size(), 2);
  for (int number : numbers) put(bytes, number, 2);
}

void put_update(Bytes& bytes, const Update& update) {
  put(bytes, 0x55, 1);
  put(bytes, update.unit, 1);
  put(bytes, update.step, 4);
  put_numbers(bytes, update.flips);
  put(bytes, update.writes.size(), 2);
  for (const Write& w : update.writes) put(bytes, w.var, 2), put(bytes, w.transition, 2), put_value(bytes, w.value);
  put_numbers(bytes, update.raised);
  put(bytes, update.starts.size(), 2);
  for (const Start& s : update.starts) put(bytes, s.act, 2), put(bytes, s.transition, 2), put(bytes, s.place, 1);
  put_numbers(bytes, update.fired);
  put(bytes, update.outers.size(), 2);
  for (const Outer& outer : update.outers) put_outer(bytes, outer);
}

// Reads the bytes of updates and records back.
class Decoder {
 public:
  explicit Decoder(const uint8_t* at) : at(at) {}

  uint64_t get(int count) {
    uint64_t number = 0;
    while (count-- > 0) number = number << 8 | *at++;
    return number;
  }

  string text() {
    size_t length = get(1);
    at += length;
    return string(at - length, at);
  }

  Value value() {
    uint64_t sort = get(1);
    if (sort == 0) return get(1) == 1;
    if (sort == 1) return (int64_t)get(8);
    return text();
  }

  Outer outer() {
    Outer made{get(1) == 0, 0, 0, {}};
    if (!made.is_event) made.item = (uint32_t)get(4);
    made.number = (int)get(2);
    if (!made.is_event)
      for (uint64_t left = get(1); left > 0; left--) {
        int var = (int)get(2);
        made.outputs.push_back({var, value()});
      }
    return made;
  }

  vector<int> numbers() {
    vector<int> made(get(2));
    for (int& number : made) number = (int)get(2);
    return made;
  }

  Update update() {
    Update made;
    get(1);
    made.unit = (int)get(1);
    made.step = (uint32_t)get(4);
    made.flips = numbers();
    for (uint64_t left = get(2); left > 0; left--) {
      int var = (int)get(2), transition = (int)get(2);
      made.writes.push_back({var, transition, value()});
    }
    made.raised = numbers();
    for (uint64_t left = get(2); left > 0; left--) {
      int act = (int)get(2), transition = (int)get(2);
      made.starts.push_back({act, transition, (int)get(1)});
    }
    made.fired = numbers();
    for (uint64_t left = get(2); left > 0; left--) made.outers.push_back(outer());
    return made;
  }

 private:
  const uint8_t* at;
};

// ---- what a unit sees, and what it does

// What the conditions and values of a step see.
struct Snapshot {
  vector<bool> states;
  vector<Value> values;
  vector<bool> events;
  vector<uint32_t> open;
  vector<bool> done;
};

// What a unit keeps between steps: the states that are in, the values, the events raised in the last step, how many items of
// each activity are open, and what comes in the next step.
struct View {
  vector<bool> states;
  vector<Value> values;
  vector<bool> raised;
  vector<uint32_t> open;
  vector<Outer> next;
};

Snapshot seen(const View& view) {
  Snapshot now{view.states, view.values, view.raised, view.open, vector<bool>(view.open.size())};
  for (const Outer& outer : view.next) {
    for (const Output& o : outer.outputs) now.values[o.var] = o.value;
    if (outer.is_event)
      now.events[outer.number] = true;
    else if (now.open[outer.number] > 0)
      now.open[outer.number]--;
    if (!outer.is_event) now.done[outer.number] = true;
  }
  return now;
}

// The value of an expression, or none if it has a fault.
optional<Value> value_of(const Expression& e, const Snapshot& now);

optional<Value> sum_of(Op op, int64_t left, int64_t right) {
  int64_t made;
  if (op == Op::Plus) return __builtin_add_overflow(left, right, &made) ? optional<Value>() : made;
  if (op == Op::Take) return __builtin_sub_overflow(left, right, &made) ? optional<Value>() : made;
  if (op == Op::Times) return __builtin_mul_overflow(left, right, &made) ? optional<Value>() : made;
  if (right == 0 || (left == INT64_MIN && right == -1)) return {};
  return op == Op::By ? left / right : left % right;
}

optional<Value> value_of_both(Op op, const Value& left, const Value& right) {
  if (op == Op::Equal) return left == right;
  if (op == Op::Unequal) return left != right;
  int64_t low = std::get<int64_t>(left), high = std::get<int64_t>(right);
  if (op == Op::Less) return low < high;
  if (op == Op::AtMost) return low <= high;
  if (op == Op::Greater) return low > high;
  if (op == Op::AtLeast) return low >= high;
  return sum_of(op, low, high);
}

optional<Value> value_of(const Expression& e, const Snapshot& now) {
  if (e.op == Op::Value) return e.value;
  if (e.op == Op::Var) return now.values[e.number];
  if (e.op == Op::In) return (bool)now.states[e.number];
  if (e.op == Op::Count) return (int64_t)now.open[e.number];
  if (e.op == Op::Done) return (bool)now.done[e.number];
  optional<Value> left = value_of(e.parts[0], now);
  if (!left) return {};
  if (e.op == Op::Not) return !std::get<bool>(*left);
  if (e.op == Op::Minus) return sum_of(Op::Take, 0, std::get<int64_t>(*left));
  if ((e.op == Op::Or && std::get<bool>(*left)) || (e.op == Op::And && !std::get<bool>(*left))) return left;
  optional<Value> right = value_of(e.parts[1], now);
  if (!right || e.op == Op::Or || e.op == Op::And) return right;
  return value_of_both(e.op, *left, *right);
}

bool is_enabled(const Transition& t, const Snapshot& now) {
  if (!now.states[t.source] || (t.event && !now.events[*t.event])) return false;
  if (!t.guard) return true;
  optional<Value> holds = value_of(*t.guard, now);
  return holds && std::get<bool>(*holds);
}

// Which transitions fire, of those that concern the unit.
vector<bool> fired_of(const Chart& chart, const Part& part, const Snapshot& now) {
  vector<bool> enabled(chart.transitions.size()), fired(chart.transitions.size());
  for (const PartTransition& t : part.transitions) enabled[t.number] = is_enabled(chart.transitions[t.number], now);
  for (const PartTransition& t : part.transitions)
    fired[t.number] =
        enabled[t.number] && std::none_of(t.blockers.begin(), t.blockers.end(), [&](int b) { return enabled[b]; });
  return fired;
}

bool is_any(const vector<int>& numbers, const vector<bool>& of) {
  return std::any_of(numbers.begin(), numbers.end(), [&](int n) { return of[n]; });
}

// Adds a write; a later one of a variable wins over an earlier one.
void add_write(vector<Write>& writes, Write write) {
  auto place =
      std::lower_bound(writes.begin(), writes.end(), write.var, [](const Write& w, int var) { return w.var < var; });
  if (place != writes.end() && place->var == write.var)
    *place = write;
  else
    writes.insert(place, write);
}

// What an own transition that fires does.
void act(const Transition& transition, int number, const Snapshot& now, Update& update, vector<bool>& raised) {
  for (int place = 0; place < (int)transition.actions.size(); place++) {
    const Action& action = transition.actions[place];
    if (action.what == Action::Raise) raised[action.number] = true;
    if (action.what == Action::Start) update.starts.push_back({action.number, number, place});
    if (action.what != Action::Assign) continue;
    if (optional<Value> value = value_of(action.value, now))
      add_write(update.writes, {action.number, number, *value});
    else
      raised[0] = true;
  }
}

// The unit's update of a step.
Update own_update(const Chart& chart, const Part& part, const View& view, uint32_t step, vector<Outer> outers) {
  Snapshot now = seen(view);
  vector<bool> fired = fired_of(chart, part, now), raised(chart.events.size());
  Update update{part.unit, step, {}, {}, {}, {}, {}, std::move(outers)};
  for (const Component& c : part.components)
    if (now.states[c.state] ? !is_any(c.enter, fired) && is_any(c.leave, fired) : is_any(c.enter, fired))
      update.flips.push_back(c.state);
  for (const PartTransition& t : part.transitions)
    if (t.is_own && fired[t.number])
      update.fired.push_back(t.number), act(chart.transitions[t.number], t.number, now, update, raised);
  for (int e = 0; e < (int)raised.size(); e++)
    if (raised[e]) update.raised.push_back(e);
  return update;
}

// The view after a step, from the updates of all units. Starts of the unit's own activities are added in their order.
View absorbed(const Part& part, const View& view, const vector<const Update*>& updates, vector<Start>& started) {
  Snapshot now = seen(view);
  View after{now.states, now.values, vector<bool>(now.events.size()), now.open, {}};
  vector<int> writer(now.values.size(), -1);
  for (const Update* whole : updates) {
    Update update = cut(*whole, part.knows);
    for (int s : update.flips) after.states[s] = !after.states[s];
    for (const Write& w : update.writes)
      if (w.transition > writer[w.var]) writer[w.var] = w.transition, after.values[w.var] = w.value;
    for (int e : update.raised) after.raised[e] = true;
    for (const Start& s : update.starts) after.open[s.act]++, started.push_back(s);
    for (const Outer& outer : update.outers) after.next.push_back(outer);
  }
  std::sort(started.begin(), started.end(), [](const Start& a, const Start& b) {
    return a.transition != b.transition ? a.transition < b.transition : a.place < b.place;
  });
  return after;
}

// ---- disks and journals

// A disk in memory. Of what isn't synced it keeps the bytes that were there before.
class Disk {
 public:
  const Bytes& bytes() const { return image; }

  bool has_stopped() const { return stop.has_value(); }

  void arm(uint64_t stroke, Outcome what) {
    left = stroke;
    fuse = what;
  }

  void disarm() { left = 0; }

  bool write(size_t at, const Bytes& bytes) {
    optional<Outcome> met = stroke();
    if (met == Outcome::Fail) return false;
    size_t over = std::min(image.size(), at + bytes.size());
    unsynced.push_back({at, bytes.size(), image.size(), Bytes(image.begin() + at, image.begin() + over)});
    image.resize(std::max(image.size(), at + bytes.size()));
    std::copy(bytes.begin(), bytes.end(), image.begin() + at);
    stop = met;
    return !met;
  }

  bool sync() {
    optional<Outcome> met = stroke();
    if (!met) unsynced.clear();
    if (met != Outcome::Fail) stop = met;
    return !met;
  }

  void crash(Outcome outcome) {
    if (outcome != Outcome::Keep) lose();
    if (outcome == Outcome::Torn) tear();
    unsynced.clear();
  }

  void revive() {
    if (stop) crash(*stop);
    stop.reset();
  }

 private:
  struct Unsynced {
    size_t at, length, size;
    Bytes before;
  };

  Bytes image;
  vector<Unsynced> unsynced;
  uint64_t left = 0;
  Outcome fuse = Outcome::Fail;
  optional<Outcome> stop;

  optional<Outcome> stroke() {
    if (left == 0 || --left > 0) return {};
    return fuse;
  }

  void lose() {
    for (size_t n = unsynced.size(); n-- > 0;) {
      std::copy(unsynced[n].before.begin(), unsynced[n].before.end(), image.begin() + unsynced[n].at);
      image.resize(unsynced[n].size);
    }
  }

  void tear() {
    for (const Unsynced& u : unsynced) {
      image.resize(std::max(image.size(), u.at + u.length));
      std::fill_n(image.begin() + u.at, u.length, 0xFF);
    }
  }
};

// Frames on a disk: a gate, a length and a body each, and behind the last a closed gate.
class Journal {
 public:
  Disk disk;

  bool start() {
    if (!disk.sync()) return false;
    if (disk.bytes().size() < 2 && !(disk.write(0, {0}) && disk.sync())) return false;
    end = 0;
    while (disk.bytes()[end] == 1) end += 5 + length_at(end);
    return true;
  }

  bool append(const Bytes& body) {
    Bytes frame;
    put(frame, body.size(), 4);
    frame.insert(frame.end(), body.begin(), body.end());
    frame.push_back(0);
    if (!(disk.write(end + 1, frame) && disk.sync() && disk.write(end, {1}) && disk.sync())) return false;
    end += frame.size();
    return true;
  }

  template <class Take>
  void each(Take take) const {
    for (size_t at = 0; at < end; at += 5 + length_at(at)) take(&disk.bytes()[at + 5]);
  }

 private:
  size_t end = 0;

  size_t length_at(size_t gate) const { return Decoder(&disk.bytes()[gate + 1]).get(4); }
};

// ---- servers

struct Admission {
  uint64_t request;
  Outer outer;
};

struct Item {
  int act;
  bool is_done;
};

enum class Health { Works, Failed, Down };

class Server {
 public:
  Server(const Chart& chart, const vector<Part>& parts, const View& first, int unit)
      : chart(chart), parts(parts), first(first), unit(unit) {
    recover();
    journal.append(head());
  }

  bool is_down() const { return health == Health::Down; }

  bool works() const { return health == Health::Works; }

  Disk& disk() { return journal.disk; }

  const vector<uint32_t>& seals() const { return sealed; }

  size_t admitted() const { return admissions.size(); }

  // How many of its own transitions fired in the steps that it has taken.
  size_t fired() const { return total_fired; }

  string admit(uint64_t request, const Outer& outer) {
    if (health != Health::Works) return barred();
    if (auto found = numbers.find(request); found != numbers.end())
      return (admissions[found->second - 1].outer == outer ? "again " : "reused ") + std::to_string(found->second);
    if (const char* why = refusal(outer)) return why;
    Bytes body{0x41};
    put(body, request, 8);
    put_outer(body, outer);
    if (!journal.append(body)) return fail();
    add(request, outer);
    return "new " + std::to_string(admissions.size());
  }

  string turn() {
    if (health != Health::Works) return barred();
    string missing;
    for (size_t v = 0; v < parts.size(); v++)
      if ((int)v != unit && !came[v]) missing += " " + string(chart.units[v]);
    if (!missing.empty()) return "waiting" + missing;
    vector<Update> inputs;
    for (optional<Update>& update : came)
      if (update) inputs.push_back(std::move(*update));
    uint32_t seals = std::min<size_t>(64, admissions.size() - total_sealed);
    if (!journal.append(turn_body(inputs, seals))) {
      for (Update& update : inputs) came[update.unit] = std::move(update);
      return fail();
    }
    take_turn(inputs, seals);
    return "took " + std::to_string(sealed.size());
  }

  // The updates that the unit keeps, each as bytes for another unit.
  vector<std::pair<uint32_t, Bytes>> letters(int peer) const {
    vector<std::pair<uint32_t, Bytes>> made;
    if (last.step > 0) made.push_back({last.step, letter(last, peer)});
    made.push_back({next.step, letter(next, peer)});
    return made;
  }

  string deliver(const Bytes& bytes) {
    if (is_down()) return "down";
    Update update = Decoder(bytes.data()).update();
    if (update.step <= sealed.size()) return "old";
    optional<Update>& place = (update.step == sealed.size() + 1 ? came : early)[update.unit];
    if (place) return "same";
    place = std::move(update);
    return "fresh";
  }

  string crash(Outcome outcome) {
    if (is_down()) return "down";
    journal.disk.crash(outcome);
    health = Health::Down;
    return "crashed";
  }

  string recover() {
    journal.disk.revive();
    forget();
    if (!journal.start()) {
      health = Health::Down;
      return journal.disk.has_stopped() ? "crashed" : "diskfault";
    }
    next = own_update(chart, parts[unit], view, 1, {});
    journal.each([this](const uint8_t* body) { follow(body); });
    health = Health::Works;
    return "recovered taken " + std::to_string(sealed.size()) + " admitted " + std::to_string(admissions.size());
  }

  string show() const { return is_down() ? "down" : sight(); }

  string sight() const {
    string text = "after " + std::to_string(sealed.size()) + " in";
    for (const Component& c : parts[unit].components)
      if (view.states[c.state]) text += " " + string(chart.states[c.state].name);
    text += " vars";
    for (size_t x = 0; x < chart.vars.size(); x++)
      if (parts[unit].knows.vars[x]) text += " " + string(chart.vars[x].name) + "=" + text_of(view.values[x]);
    return text;
  }

  string shown_items() const {
    if (is_down()) return "down";
    string text = "items";
    for (size_t n = 0; n < items.size(); n++)
      text +=
          " " + string(chart.acts[items[n].act].name) + "#" + std::to_string(n + 1) + (items[n].is_done ? "=done" : "=open");
    return text;
  }

 private:
  const Chart& chart;
  const vector<Part>& parts;
  const View& first;
  int unit;
  Journal journal;
  Health health = Health::Works;
  vector<Admission> admissions;
  std::unordered_map<uint64_t, size_t> numbers;  // of the admissions, by their requests
  vector<uint32_t> sealed;
  size_t total_sealed = 0, total_fired = 0;
  vector<Item> items;
  View view;
  Update last, next;
  vector<optional<Update>> came, early;

  static string text_of(const Value& value) {
    if (auto truth = std::get_if<bool>(&value)) return *truth ? "true" : "false";
    if (auto number = std::get_if<int64_t>(&value)) return std::to_string(*number);
    return "\"" + std::get<string>(value) + "\"";
  }

  string barred() const { return health == Health::Failed ? "reopen" : "down"; }

  string fail() {
    health = journal.disk.has_stopped() ? Health::Down : Health::Failed;
    return is_down() ? "crashed" : "diskfault";
  }

  void forget() {
    admissions.clear();
    numbers.clear();
    sealed.clear();
    total_sealed = total_fired = 0;
    items.clear();
    view = first;
    last = Update();
    came.assign(parts.size(), {});
    early.assign(parts.size(), {});
  }

  Bytes head() const {
    Bytes body{0x48, 1};
    put_text(body, chart.name);
    put_text(body, chart.units[unit]);
    return body;
  }

  Bytes letter(const Update& update, int peer) const {
    Bytes bytes;
    put_update(bytes, cut(update, parts[peer].knows));
    return bytes;
  }

  Bytes turn_body(const vector<Update>& inputs, uint32_t seals) const {
    Bytes body{0x54};
    put(body, sealed.size() + 1, 4);
    put(body, inputs.size(), 1);
    for (const Update& update : inputs) put_update(body, update);
    put(body, seals, 2);
    return body;
  }

  // Takes a record of the journal.
  void follow(const uint8_t* body) {
    Decoder decoder(body + 1);
    if (*body == 0x41) {
      uint64_t request = decoder.get(8);
      add(request, decoder.outer());
    }
    if (*body != 0x54) return;
    decoder.get(4);
    vector<Update> inputs;
    for (uint64_t left = decoder.get(1); left > 0; left--) inputs.push_back(decoder.update());
    take_turn(inputs, (uint32_t)decoder.get(2));
  }

  void add(uint64_t request, const Outer& outer) {
    admissions.push_back({request, outer});
    numbers[request] = admissions.size();
    if (!outer.is_event) items[outer.item - 1].is_done = true;
  }

  const char* refusal(const Outer& outer) const {
    if ((outer.is_event ? chart.events[outer.number].unit : chart.acts[outer.number].unit) != unit) return "wrong unit";
    if (outer.is_event) return nullptr;
    if (outer.item < 1 || outer.item > items.size() || items[outer.item - 1].act != outer.number) return "no item";
    if (items[outer.item - 1].is_done) return "already done";
    const vector<int>& wanted = chart.acts[outer.number].outputs;
    bool fits = std::equal(
        wanted.begin(), wanted.end(), outer.outputs.begin(), outer.outputs.end(),
        [&](int var, const Output& o) { return o.var == var && o.value.index() == chart.vars[var].first.index(); });
    return fits ? nullptr : "wrong output";
  }

  // Takes the next step, with the updates of all other units, and seals admissions.
  void take_turn(const vector<Update>& inputs, uint32_t seals) {
    vector<const Update*> updates;
    for (const Update& update : inputs) updates.push_back(&update);
    updates.insert(updates.begin() + unit, &next);
    vector<Start> started;
    view = absorbed(parts[unit], view, updates, started);
    for (const Start& s : started)
      if (chart.acts[s.act].unit == unit) items.push_back({s.act, false});
    vector<Outer> outers;
    for (size_t n = total_sealed; n < total_sealed + seals; n++) outers.push_back(admissions[n].outer);
    sealed.push_back(seals);
    total_sealed += seals;
    total_fired += next.fired.size();
    last = std::move(next);
    next = own_update(chart, parts[unit], view, (uint32_t)sealed.size() + 1, std::move(outers));
    came = std::move(early);
    early.assign(parts.size(), {});
  }
};

// ---- plays

struct Message {
  uint8_t sender, receiver;
  Bytes bytes;
};

class Play {
 public:
  explicit Play(const Chart& chart) : chart(chart) {
    Cutter cutter(chart);
    first = {cutter.first_states(), {}, vector<bool>(chart.events.size()), vector<uint32_t>(chart.acts.size()), {}};
    for (const Variable& var : chart.vars) first.values.push_back(var.first);
    for (size_t u = 0; u < chart.units.size(); u++) parts.push_back(cutter.part((int)u));
    for (size_t u = 0; u < chart.units.size(); u++) servers.emplace_back(chart, parts, first, (int)u);
  }

  size_t sent() const { return bytes_sent; }

  string reply(const Line& line) {
    if (line.word == "round") return round();
    if (line.word == "deliver") return deliver(line.count);
    Server& server = servers[line.unit];
    if (line.word == "admit") return server.admit(line.count, line.outer);
    if (line.word == "turn") return server.turn();
    if (line.word == "send") return send(line.unit, line.other);
    if (line.word == "crash") return server.crash(line.outcome);
    if (line.word == "recover") return server.recover();
    if (line.word == "show") return server.show();
    if (line.word == "items") return server.shown_items();
    server.disk().arm(line.count, line.outcome);
    return "armed";
  }

  string ending() {
    string text = "end\n";
    for (Server& server : servers) server.disk().disarm();
    for (size_t u = 0; u < servers.size(); u++)
      if (!servers[u].works()) text += string(chart.units[u]) + " " + servers[u].recover() + "\n";
    for (size_t u = 0; u < servers.size(); u++)
      text +=
          string(chart.units[u]) + " admitted " + std::to_string(servers[u].admitted()) + " " + servers[u].sight() + "\n";
    return text + merged();
  }

  string summary() const {
    size_t admitted = 0, fired = 0;
    for (const Server& server : servers) admitted += server.admitted(), fired += server.fired();
    return "steps " + std::to_string(least_taken()) + " admitted " + std::to_string(admitted) + " fired " +
           std::to_string(fired);
  }

 private:
  const Chart& chart;
  vector<Part> parts;
  View first;
  vector<Server> servers;
  vector<Message> messages;
  size_t bytes_sent = 0;

  string send(int u, int v) {
    if (servers[u].is_down()) return "down";
    string text = "sent";
    for (auto& [step, bytes] : servers[u].letters(v)) {
      bytes_sent += bytes.size();
      messages.push_back({(uint8_t)u, (uint8_t)v, std::move(bytes)});
      text += " " + std::to_string(messages.size());
    }
    return text;
  }

  string deliver(size_t number) {
    if (number > messages.size()) return "no message";
    const Message& message = messages[number - 1];
    return servers[message.receiver].deliver(message.bytes);
  }

  void exchange(int u, int v) {
    size_t before = messages.size();
    send(u, v);
    for (size_t n = before + 1; n <= messages.size(); n++) deliver(n);
  }

  string round() {
    string text = "round";
    for (size_t u = 0; u < servers.size(); u++)
      for (size_t v = 0; v < servers.size(); v++)
        if (u != v) exchange((int)u, (int)v);
    for (size_t u = 0; u < servers.size(); u++) text += (u ? ", " : " ") + string(chart.units[u]) + " " + servers[u].turn();
    return text;
  }

  size_t least_taken() const {
    size_t least = servers[0].seals().size();
    for (const Server& server : servers) least = std::min(least, server.seals().size());
    return least;
  }

  // Which admissions are in which step.
  string merged() const {
    size_t least = least_taken();
    string text;
    vector<size_t> before(servers.size());
    for (size_t step = 3; step <= least + 2; step++) {
      string places;
      for (size_t u = 0; u < servers.size(); u++)
        for (uint32_t left = servers[u].seals()[step - 3]; left > 0; left--)
          places += " " + string(chart.units[u]) + ":" + std::to_string(++before[u]);
      if (!places.empty()) text += "step " + std::to_string(step) + places + "\n";
    }
    return text;
  }
};

// ---- generated input

class Generator {
 public:
  explicit Generator(uint32_t number) : x(number) {}

  string input() {
    string text = "chart bulk; unit u0; unit u1; unit u2; event e0 at u0; event e1 at u1; event e2 at u2; event i;\n"
                  "var x : int = 0; var y : int = 1;\nor R at u0 { and A at u0 {\n";
    for (int r = 0; r < 6; r++) text += group(std::to_string(r), " at u" + std::to_string(r % 3));
    text += "} }\n";
    for (int t = 0; t < 30; t++) text += transition("G" + std::to_string(t / 5) + "S");
    text += "---\n";
    for (int q = 1; q <= 1000; q++) text += admission(std::to_string(draw(3)), std::to_string(q));
    return text + "round\nround\nround\nround\n";
  }

 private:
  uint64_t x;

  uint64_t draw(uint64_t below) {
    x = x * 6364136223846793005u + 1442695040888963407u;
    return (x >> 33) % below;
  }

  static string group(const string& r, const string& unit) {
    string text = "or G" + r + unit + " {";
    for (int j = 0; j < 4; j++) text += " basic G" + r + "S" + std::to_string(j) + unit + ";";
    return text + " }\n";
  }

  string transition(const string& basic) {
    static const char* const events[]{"e0", "e1", "e2", "i"};
    static const char* const actions[]{" do x := x + 1", " do y := x - y", " do raise i", ""};
    string text = "from " + basic + std::to_string(draw(4));
    text += " to " + basic + std::to_string(draw(4));
    text += string(" on ") + events[draw(4)];
    return text + actions[draw(4)] + ";\n";
  }

  static string admission(const string& unit, const string& request) {
    return "admit u" + unit + " " + request + " event e" + unit + "\nround\n";
  }
};

// ---- the input and the output

string all_input() {
  string text;
  char block[65536];
  for (size_t got; (got = fread(block, 1, sizeof block, stdin)) > 0;) text.append(block, got);
  return text;
}

vector<Line> lines_of(Chart& chart, string_view script) {
  vector<Line> lines;
  for (uint32_t number = 1; !script.empty(); number++) {
    size_t end = std::min(script.find('\n'), script.size());
    Reader reader(chart, script.substr(0, end));
    if (!reader.at_end()) lines.push_back(reader.line(number));
    script.remove_prefix(std::min(end + 1, script.size()));
  }
  return lines;
}

int refuse(const char* what) {
  printf("refused limit %s\n", what);
  return 8;
}

int main(int count, char** words) {
  constexpr size_t most = 268435456;
  bool is_bulk = count == 3 && string_view(words[1]) == "bulk";
  uint32_t number = is_bulk ? (uint32_t)strtoul(words[2], nullptr, 10) : 0;
  string input = "\n" + (is_bulk ? Generator(number).input() : all_input());
  size_t divider = std::min(input.find("\n---\n"), input.size());
  Chart chart;
  Reader(chart, string_view(input).substr(0, divider)).read_chart();
  vector<Line> lines = lines_of(chart, string_view(input).substr(std::min(divider + 5, input.size())));
  Play play(chart);
  string text;
  for (const Line& line : lines) {
    text += std::to_string(line.number) + ": " + play.reply(line) + "\n";
    if (play.sent() > most) return refuse("sent");
  }
  if (is_bulk)
    text = "bulk " + std::to_string(number) + " " + play.summary() + "\n";
  else
    text += play.ending();
  if (text.size() > most) return refuse("report");
  return fwrite(text.data(), 1, text.size(), stdout) == text.size() ? 0 : 5;
}
