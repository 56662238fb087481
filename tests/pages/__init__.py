"""Pages of `zevkhadun inspect` in Chromium: on a wide and a narrow screen, light, dark and in print."""

NEEDS = ("program",)
