s/"version": "1.0.1"/"version": "2.0.0"/
s/"version": "1.9.0"/"version": "1.5.9"/
s/"version": "1.1.0"/"version": "1.2.0"/
s/"version": "2.5.0"/"version": "2.6.0"/
s/"version": "1.0.0"/"version": "1.0.0-rc.1"/
s/"version": "0.1.0-alpha.3"/"version": "0.2.0-beta"/
s/\[{"kind": "dev", "target": null}\]/[{"kind": "build", "target": null}]/
