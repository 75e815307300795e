// verdict.cc: see verdict.h.
#include "verdict.h"

namespace monitor {

const char *name_of(What what) {
    switch (what) {
    case What::began_anew: return "began anew";
    case What::departure: return "not our table";
    case What::fell_silent: return "fell silent";
    case What::cannot_judge: return "cannot judge";
    case What::unlikely: return "unlikely";
    case What::doubled: return "doubled TEI";
    }
    return "";
}

} // namespace monitor
