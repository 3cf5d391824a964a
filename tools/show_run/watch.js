// For tools/show_test: keeps what would come on the console.
window.troubles = [];
for (const kind of ["error", "warn"]) console[kind] = (...given) => troubles.push(`${kind}: ${given.join(" ")}`);
addEventListener("error", (event) => troubles.push(`error: ${event.message || event.target.outerHTML}`), true);
addEventListener("unhandledrejection", (event) => troubles.push(`rejection: ${event.reason}`));
document.addEventListener("securitypolicyviolation", (event) => troubles.push(`refused: ${event.blockedURI}`));
