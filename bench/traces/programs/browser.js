// WebRender by OpenGL and GLX, in the process of the window
user_pref("gfx.webrender.all", true);
user_pref("gfx.webrender.software", false);
user_pref("gfx.blacklist.webrender", 1);
user_pref("gfx.x11-egl.force-disabled", true);
user_pref("layers.acceleration.force-enabled", true);
user_pref("layers.gpu-process.enabled", false);
// the page closes the window
user_pref("dom.allow_scripts_to_close_windows", true);
// no page but ours, and nothing from the network
user_pref("app.update.enabled", false);
user_pref("browser.aboutwelcome.enabled", false);
user_pref("browser.shell.checkDefaultBrowser", false);
user_pref("browser.startup.homepage_override.mstone", "ignore");
user_pref("datareporting.policy.dataSubmissionEnabled", false);
user_pref("toolkit.telemetry.enabled", false);
