// @ts-check
// Says at the foot of a served page that the browser does not keep it: that needs a certificate that the device trusts.
"use strict";

/** @returns {void} */
function tellOnline() {
  const foot = document.querySelector('footer [data-t="offline"]');
  if (!foot) return;
  foot.setAttribute("data-t", "online");
  foot.textContent = t("online");
}
