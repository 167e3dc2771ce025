// The operator's settings of the page.
export const settings = {
  // The name above title sheets and on the page; null: the name of the language file.
  office: null,
  // After so many minutes without a key or a click the page signs out. It warns some minutes earlier.
  idleMinutes: 30,
  warnMinutes: 2,
  // Where the mirror's read gateway answers, relative to the page; null: never use it.
  mirror: "mirror",
  // The square that zoom 0 of the mirror's map covers, in metres, as in its table access.setting.
  tiles: { west: -131072, north: 131072, side: 262144 },
};
