// columns < NUMBERS > MODEL.lp: the set partitioning model of a case in the LP format, with a column for each
// car and each set of calls that some tour of the car serves, at the cost of its cheapest tour. `data
// columns` writes the numbers. It uses nothing of `lift`.
//
// All tours of a car are listed, by how many have boarded and got off. Of two beginnings of tours at one
// floor, after which the same have boarded and the same are carried, one is dropped that leaves no sooner and
// has cost no less: what may follow is the same.
#include <algorithm>
#include <cstdint>
#include <cstdlib>
#include <iostream>
#include <map>
#include <sstream>
#include <string>
#include <unordered_map>
#include <vector>

using Number = long long;
using Set = uint64_t;

template <typename Value = Number> static Value read() {
    Value value;
    if (!(std::cin >> value)) { std::cerr << "a number is missing\n"; std::exit(2); }
    return value;
}

static bool has(Set set, int member) { return set >> member & 1; }
static Set only(int member) { return Set(1) << member; }
static int size_of(Set set) { return __builtin_popcountll(set); }

struct Car {
    Number capacity = read(), opening = read(), closing = read(), boarding = read(), alighting = read();
    int start = read<int>();
    Number free = read();
    bool is_under_way = read() != 0;
    Set serves = read<Set>(), first = read<Set>();
};

struct Rider {
    int origin = read<int>(), destination = read<int>();
    Number persons = read(), came = read();
    // the cars that it may ride with, and the calls before it in its queue
    Set cars = read<Set>(), before = read<Set>();
};

struct Case {
    int floors = read<int>();
    Number waiting_weight = read(), riding_weight = read(), patience = read(), patience_weight = read();
    std::vector<std::vector<Number>> travel;
    std::vector<Car> cars;
    // the calls, and after them the groups aboard
    int calls = 0;
    std::vector<Rider> riders;

    Case() : travel(floors, std::vector<Number>(floors)) {
        for (auto &row : travel) for (Number &time : row) time = read();
        cars.resize(read());
        calls = read<int>();
        riders.resize(read());
        if (riders.size() > 64) { std::cerr << "too many riders\n"; std::exit(2); }
    }

    Number cost_of_wait(Number wait) const {
        return waiting_weight * wait + patience_weight * std::max<Number>(0, wait - patience);
    }
};

// The beginning of a tour: where the car is, who boarded and who is carried. Groups aboard have not boarded
// here.
struct Place {
    int floor;
    Set boarded, carried;
    bool operator==(const Place &other) const {
        return floor == other.floor && boarded == other.boarded && carried == other.carried;
    }
};

struct PlaceHash {
    size_t operator()(const Place &place) const {
        Set mixed = place.boarded * 0x9E3779B97F4A7C15u ^ place.carried;
        mixed = mixed * 0xC2B2AE3D27D4EB4Fu + Set(place.floor);
        return size_t(mixed ^ mixed >> 29);
    }
};

// When the car leaves, and what those who boarded have cost: those carried as if they had got off at moment
// 0.
struct Label {
    Number leaves, cost;
    bool is_no_worse(const Label &other) const { return leaves <= other.leaves && cost <= other.cost; }
};

// Lists the tours of one car.
class Lister {
    using Layer = std::unordered_map<Place, std::vector<Label>, PlaceHash>;
    const Case &the;
    const Car &car;
    const Set bit;
    // by how many have boarded and got off
    std::vector<Layer> layers;
    Set aboard = 0;

public:
    std::map<Set, Number> cheapest;

    Lister(const Case &its_case, int place)
        : the(its_case), car(the.cars[place]), bit(only(place)), layers(2 * the.riders.size() + 2) {
        Number cost = 0;
        for (int r = the.calls; r < int(the.riders.size()); r++)
            if (the.riders[r].cars == bit) {
                aboard |= only(r);
                cost -= the.riding_weight * the.riders[r].persons * the.riders[r].came;
            }
        list(cost);
    }

private:
    void list(Number cost) {
        Place start{car.start, 0, aboard};
        if (!car.is_under_way && !aboard) cheapest[0] = cost;
        for (int next = 0; next < the.floors; next++)
            if (has(car.first, next) && passes_nobody(start, next))
                stop(start, next, {car.free, cost}, car.is_under_way);
        for (Layer &layer : layers) {
            for (auto &[place, labels] : layer)
                for (const Label &label : labels) go_on(place, label);
            layer.clear();
        }
    }

    void go_on(const Place &place, const Label &label) {
        if (!place.carried) {
            auto [at, is_new] = cheapest.try_emplace(place.boarded, label.cost);
            if (!is_new) at->second = std::min(at->second, label.cost);
        }
        for (int next = 0; next < the.floors; next++)
            if (next != place.floor && has(car.serves, next) && passes_nobody(place, next))
                stop(place, next, label, false);
    }

    // On the way nobody who is carried is taken past, or away from, where they go.
    bool passes_nobody(const Place &place, int next) const {
        for (Set left = place.carried; left; left &= left - 1) {
            int to = the.riders[__builtin_ctzll(left)].destination;
            if ((next > place.floor && to < next) || (next < place.floor && to > next)) return false;
        }
        return true;
    }

    // The next stop, with each set of calls that may board there.
    void stop(const Place &place, int next, const Label &label, bool may_be_useless) {
        Number opened = label.leaves + the.travel[place.floor][next] + car.opening;
        Label then{opened + car.closing, label.cost};
        Place after{next, place.boarded, place.carried};
        Number room = car.capacity;
        for (Set left = place.carried; left; left &= left - 1) {
            int r = __builtin_ctzll(left);
            const Rider &rider = the.riders[r];
            if (rider.destination == next) {
                after.carried &= ~only(r);
                then.leaves += car.alighting * rider.persons;
                then.cost += the.riding_weight * rider.persons * opened;
            } else room -= rider.persons;
        }
        Set here = 0;
        for (int j = 0; j < the.calls; j++) if (may_board(j, next, place.boarded)) here |= only(j);
        bool is_useful = may_be_useless || after.carried != place.carried;
        for (Set some = here;; some = (some - 1) & here) {
            if (some || is_useful) board(after, some, opened, room, then);
            if (!some) break;
        }
    }

    bool may_board(int j, int floor, Set boarded) const {
        const Rider &call = the.riders[j];
        if (call.origin != floor || has(boarded, j) || !(call.cars & bit)) return false;
        for (int k = 0; k < the.calls; k++)
            if (has(boarded, k) && has(the.riders[k].before, j)) return false;
        return true;
    }

    void board(Place after, Set some, Number opened, Number room, Label then) {
        for (Set left = some; left; left &= left - 1) {
            const Rider &call = the.riders[__builtin_ctzll(left)];
            room -= call.persons;
            then.leaves += car.boarding * call.persons;
            then.cost += call.persons * (the.cost_of_wait(opened - call.came) - the.riding_weight * opened);
        }
        if (room < 0) return;
        after.boarded |= some;
        after.carried |= some;
        keep(after, then);
    }

    void keep(const Place &place, const Label &label) {
        int done = 2 * size_of(place.boarded) + size_of(aboard) - size_of(place.carried);
        std::vector<Label> &labels = layers[done + 1][place];
        for (const Label &other : labels) if (other.is_no_worse(label)) return;
        auto is_worse = [&](const Label &other) { return label.is_no_worse(other); };
        labels.erase(std::remove_if(labels.begin(), labels.end(), is_worse), labels.end());
        labels.push_back(label);
    }
};

static void write_rows(const std::string &name, const std::vector<std::string> &rows) {
    for (size_t at = 0; at < rows.size(); at++)
        std::cout << " " << name << at << ":\n" << rows[at] << " = 1\n";
}

int main() {
    const Case its_case;
    std::ostringstream costs, kinds;
    std::vector<std::string> of_call(its_case.calls), of_car(its_case.cars.size());
    Number columns = 0;
    for (size_t c = 0; c < its_case.cars.size(); c++) {
        Lister lister(its_case, int(c));
        for (auto [set, cost] : lister.cheapest) {
            std::string name = "x" + std::to_string(columns++);
            costs << " + " << cost << " " << name << "\n";
            kinds << " " << name << "\n";
            of_car[c] += " + " + name + "\n";
            for (int j = 0; j < its_case.calls; j++) if (has(set, j)) of_call[j] += " + " + name + "\n";
        }
    }
    std::cerr << columns << " columns\n";
    std::cout << "Minimize\n cost:\n" << costs.str() << "Subject To\n";
    write_rows("call", of_call);
    write_rows("car", of_car);
    std::cout << "Binary\n" << kinds.str() << "End\n";
}
