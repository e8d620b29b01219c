// The town by Boost.Geometry's R-tree, for the benchmark: a report is one call. Nothing is checked.
#include <boost/geometry.hpp>
#include <boost/geometry/index/rtree.hpp>

#include <algorithm>
#include <cstdint>
#include <cstdlib>
#include <utility>
#include <vector>

namespace geometry = boost::geometry;
namespace trees = boost::geometry::index;

using Point = geometry::model::point<int, 2, geometry::cs::cartesian>;
using Box = geometry::model::box<Point>;
using Entry = std::pair<Box, uint32_t>;
using Tree = trees::rtree<Entry, trees::quadratic<8>>;

// The column and row of a car that is off the map: no rectangle holds them.
static const int away = -1;

struct Rectangle {
  uint32_t a, b, w, h;
  bool holds(int x, int y) const { return uint32_t(x) - a < w && uint32_t(y) - b < h; }
  Box box() const { return Box(Point(a, b), Point(a + w - 1, b + h - 1)); }
};

struct Car {
  float at[2];
  int x, y;
};

// Calls a function for each entry that a query finds.
template <class F> struct Each {
  F *f;
  using iterator_category = std::output_iterator_tag;
  using value_type = void;
  using difference_type = std::ptrdiff_t;
  using pointer = void;
  using reference = void;
  Each &operator*() { return *this; }
  Each &operator++() { return *this; }
  Each operator++(int) { return *this; }
  Each &operator=(const Entry &found) {
    (*f)(found.second);
    return *this;
  }
};

struct Zones {
  uint32_t many = 0, list[256];
  void insert(uint32_t zone) {
    uint32_t at = many++;
    for (; at > 0 && list[at - 1] > zone; at--) list[at] = list[at - 1];
    list[at] = zone;
  }
};

struct Town {
  Tree tree;
  std::vector<Rectangle> zones;
  std::vector<Car> cars;
  uint32_t words;
  std::vector<uint64_t> rosters; // a bit for each zone and car
  std::vector<uint64_t> teams;   // of each word the cars of each team: car c is of team c modulo 8
  Zones entered, left;
  std::vector<uint32_t> listed;

  Town(uint32_t zone_room, uint32_t car_room)
      : zones(zone_room), cars(car_room), words((car_room + 63) / 64), rosters(zone_room * words), teams(8 * words),
        listed(car_room) {
    for (uint32_t car = 0; car < car_room; car++) teams[car / 64 * 8 + car % 8] |= uint64_t(1) << car % 64;
    clear();
  }

  void clear() {
    tree.clear();
    std::fill(cars.begin(), cars.end(), Car{{0, 0}, away, away});
    std::fill(rosters.begin(), rosters.end(), 0);
  }

  template <class F> void find(const Box &box, F f) const { tree.query(trees::intersects(box), Each<F>{&f}); }

  template <class F> void find(int x, int y, F f) const { tree.query(trees::intersects(Point(x, y)), Each<F>{&f}); }

  void turn(uint32_t car, const Zones &some) {
    for (uint32_t at = 0; at < some.many; at++) rosters[some.list[at] * words + car / 64] ^= uint64_t(1) << car % 64;
  }

  // One query for two cells that touch, else one for each.
  void differ(int ox, int oy, int x, int y) {
    if (ox == away) {
      find(x, y, [&](uint32_t zone) { entered.insert(zone); });
    } else if (std::abs(x - ox) <= 1 && std::abs(y - oy) <= 1) {
      Box both(Point(std::min(x, ox), std::min(y, oy)), Point(std::max(x, ox), std::max(y, oy)));
      find(both, [&](uint32_t zone) {
        bool now = zones[zone].holds(x, y), was = zones[zone].holds(ox, oy);
        if (now != was) (now ? entered : left).insert(zone);
      });
    } else {
      find(x, y, [&](uint32_t zone) { if (!zones[zone].holds(ox, oy)) entered.insert(zone); });
      find(ox, oy, [&](uint32_t zone) { if (!zones[zone].holds(x, y)) left.insert(zone); });
    }
  }
};

extern "C" {
Town *rtree_new(uint32_t zones, uint32_t cars) { return new Town(zones, cars); }

void rtree_free(Town *town) { delete town; }

void rtree_clear(Town *town) { town->clear(); }

// The list of zones entered, of zones left, or of cars in a zone.
const uint32_t *rtree_list(Town *town, uint32_t which) {
  return which == 0 ? town->entered.list : which == 1 ? town->left.list : town->listed.data();
}

void rtree_add(Town *town, uint32_t zone, uint32_t a, uint32_t b, uint32_t w, uint32_t h) {
  Rectangle r = town->zones[zone] = {a, b, w, h};
  town->tree.insert(Entry(r.box(), zone));
  for (uint32_t car = 0; car < town->cars.size(); car++) {
    uint64_t &word = town->rosters[zone * town->words + car / 64];
    word |= uint64_t(r.holds(town->cars[car].x, town->cars[car].y)) << car % 64;
  }
}

void rtree_remove(Town *town, uint32_t zone) {
  town->tree.remove(Entry(town->zones[zone].box(), zone));
  std::fill_n(&town->rosters[zone * town->words], town->words, 0);
}

uint64_t rtree_report(Town *town, uint32_t car, float at_x, float at_y) {
  Car &kept = town->cars[car];
  int x = int(at_x), y = int(at_y), ox = kept.x, oy = kept.y;
  kept = Car{{at_x, at_y}, x, y};
  if (x == ox && y == oy) return 0;
  town->entered.many = town->left.many = 0;
  town->differ(ox, oy, x, y);
  town->turn(car, town->entered);
  town->turn(car, town->left);
  return town->entered.many | uint64_t(town->left.many) << 32;
}

uint32_t rtree_search(Town *town, float x, float y) {
  town->entered.many = 0;
  town->find(int(x), int(y), [&](uint32_t zone) { town->entered.insert(zone); });
  return town->entered.many;
}

uint32_t rtree_scores(Town *town, float x, float y) {
  return town->tree.qbegin(trees::intersects(Point(int(x), int(y)))) != town->tree.qend();
}

uint32_t rtree_roster(Town *town, uint32_t zone) {
  uint32_t many = 0;
  for (uint32_t at = 0; at < town->words; at++)
    for (uint64_t word = town->rosters[zone * town->words + at]; word; word &= word - 1)
      town->listed[many++] = 64 * at + __builtin_ctzll(word);
  return many;
}

uint32_t rtree_count(Town *town, uint32_t zone) {
  uint32_t many = 0;
  for (uint32_t at = 0; at < town->words; at++) many += __builtin_popcountll(town->rosters[zone * town->words + at]);
  return many;
}

// Writes how many cars of each team are in a zone. The team from 1 to 7 with more than each other, or 0.
uint32_t rtree_holder(Town *town, uint32_t zone, uint32_t *cars) {
  for (uint32_t team = 0; team < 8; team++) {
    cars[team] = 0;
    for (uint32_t at = 0; at < town->words; at++)
      cars[team] += __builtin_popcountll(town->rosters[zone * town->words + at] & town->teams[8 * at + team]);
  }
  uint32_t most = 0, holder = 0;
  for (uint32_t team = 1; team < 8; team++) {
    if (cars[team] == most) holder = 0;
    if (cars[team] > most) most = cars[team], holder = team;
  }
  return holder;
}

void rtree_where(Town *town, uint32_t car, float *at) { std::copy_n(town->cars[car].at, 2, at); }
}
