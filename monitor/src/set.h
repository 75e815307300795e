// set.h: a set of possible states, in which equal states stand once.
#ifndef MONITOR_SET_H
#define MONITOR_SET_H

#include "state.h"

namespace monitor {

class Set {
  public:
    enum class Added : uint8_t { none, wider, anew };

    // Adds a state, or another way to one that is there. *place is where it stands.
    Added add(const Possible &it, size_t *place = nullptr);
    void clear();
    void swap(Set &other);
    // Leaves the states of which this holds.
    template <class Test> void keep_if(Test test) {
        std::vector<Possible> kept;
        for (const Possible &it : all)
            if (test(it))
                kept.push_back(it);
        clear();
        for (const Possible &it : kept)
            add(it);
    }

    size_t size() const { return all.size(); }
    bool empty() const { return all.empty(); }
    const Possible &operator[](size_t place) const { return all[place]; }
    std::vector<Possible>::const_iterator begin() const { return all.begin(); }
    std::vector<Possible>::const_iterator end() const { return all.end(); }
    // The one that fewest losses explain.
    const Possible &likeliest() const;
    // From now on losses are counted anew.
    void forget_losses();
    // Takes out each state that another one covers, which knows less of the numbers: all that may come of it may come of that.
    void leave_widest();

  private:
    void grow();
    size_t slot_of(uint64_t key) const;
    unsigned unknown_numbers() const;
    bool is_covered(const Possible &it, unsigned patterns) const;

    std::vector<Possible> all;
    std::vector<uint64_t> keys;
    std::vector<uint32_t> slots; // of a table with open addresses: places plus one; a power of two, at most half of them used
};

} // namespace monitor

#endif
