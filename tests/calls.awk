# Prints each public function of a library whose contract has an `ensures`, a method as Type::method. `names` are the names that the
# library exports.
BEGIN {
  split(names, list)
  for (i in list) is_exported[list[i]] = 1
  type = head = is_trait = yields = asks = ""
}
FNR == 1 { type = "" }
/^pub trait / { type = $3; sub(/[^A-Za-z0-9].*/, "", type); is_own = is_trait = 1 }
/^impl/ {
  sub(/^impl(<[^>]*>)? /, "")
  is_own = $0 !~ / for / || $0 ~ /^Iterator for /
  is_trait = $0 ~ / for /
  type = $0
  sub(/.* for /, "", type)
  sub(/[^A-Za-z0-9].*/, "", type)
}
/^ *ghost next_gives = / { yields = 1 }
/^}/ { type = yields = "" }
/^ *(pub )?(extern "C" )?fn / {
  is_public = $1 == "pub" || is_trait
  sub(/.*fn /, "")
  sub(/[^a-z0-9_].*/, "")
  name = type == "" ? $0 : type "::" $0
  head = is_public && (type == "" || is_own) && (type == "" ? $0 : type) in is_exported
  asks = yields && name ~ /::next$/
}
head && /^ *ensures/ { asks = 1 }
head && /^ *[{]}?$|;$/ { if (asks) print name; head = 0 }
