function search(asked) {
  const words = asked.toLowerCase().split(/\s+/).filter(it => it), found = document.getElementById("found");
  found.textContent = "";
  if (!words.length) return;
  for (const page of PAGES.filter(it => words.every(word => it.text.includes(word))).slice(0, 30)) {
    const link = document.createElement("a");
    link.href = TOP + page.at;
    link.textContent = page.title;
    found.append(link);
  }
}
const asked = new URLSearchParams(location.search).get("find");
if (asked) {
  document.querySelector("input[type=search]").value = asked;
  search(asked);
}
