s/"version": "1.4.0"/"version": "2.0.0"/
s/"version": "2.1.0"/"version": "1.2.0"/
